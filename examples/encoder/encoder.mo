model Encoder "steps and turns of a shaft with three pulses a turn"
  input Boolean pulse;
  input Boolean forward;
  Integer steps "forward less back";
  Integer late "from the third pulse on";
  Integer third "at each third pulse";
  Integer turn_ms "time of the turn; 0 at the first";
equation
  when Clock(pulse) then
    steps = previous(steps) + (if sample(forward) then 1 else -1);
  end when;
  third = subSample(late, 3);
  late = shiftSample(steps, 2);
  turn_ms = integer(interval(third) * 1000);
end Encoder;
