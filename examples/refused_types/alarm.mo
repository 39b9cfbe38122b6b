model Alarm
  input Integer level;
  Integer over = level - 80;
  Boolean alarm = over;
end Alarm;
