model Loop
  Integer pressure;
  Integer inflow;
equation
  when Clock(1, 10) then
    pressure = 100 - inflow;
    inflow = div(pressure, 2);
  end when;
end Loop;
