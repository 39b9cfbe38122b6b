model DelayLine
  Integer ramp;
  Integer first(start = -1);
  Integer second(start = -2);
equation
  when Clock(1, 10) then
    ramp = previous(ramp) + 5;
    first = previous(ramp);
    second = previous(first);
  end when;
end DelayLine;
