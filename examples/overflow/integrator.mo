model Integrator
  Integer rate;
  Integer total(start = 9223372036854775000);
equation
  when Clock(1, 1000) then
    rate = 400;
    total = previous(total) + rate;
  end when;
end Integrator;
