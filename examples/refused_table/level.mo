model Level
  input Integer level;
  Integer seen;
equation
  seen = sample(level, Clock(1));
end Level;
