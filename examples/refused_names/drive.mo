model Drive
  parameter Integer limit = 40;
  Integer speed;
equation
  when Clock(1, 100) then
    speed = min(limit, previous(sped) + 1);
  end when;
end Drive;
