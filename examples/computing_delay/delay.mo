model ComputingDelay "a command leaves half a period after its measurement"
  input Integer position;
  Integer error;
  Integer command;
  Integer sent;
  output Integer valve;
equation
  when Clock(1, 10) then
    error = 50 - sample(position);
    command = div(error, 2) + backSample(sent, 1, 2) "onto what was sent last";
  end when;
  sent = shiftSample(command, 1, 2);
  valve = hold(sent);
end ComputingDelay;
