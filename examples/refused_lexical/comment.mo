model Pump
  Integer speed;
  /* set by the operator
equation
  when Clock(1) then
    speed = previous(speed) + 1;
  end when;
end Pump;
