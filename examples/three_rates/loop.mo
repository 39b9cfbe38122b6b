within;
connector IntegerInput = input Integer;
connector IntegerOutput = output Integer;
block Filter "mean of two"
  IntegerInput u;
  IntegerOutput y;
equation
  y = div(u + previous(u), 2);
  annotation(Icon(extent = {{-100.5, -100}, {100.5, 100}}));
end Filter;
block Controller "integral control"
  parameter Integer ref = 100;
  parameter Integer limit = 40;
  IntegerInput u;
  IntegerOutput y;
protected
  Integer e "error";
  Integer sum(start = 0);
equation
  e = ref - u;
  sum = max(-limit, min(limit, previous(sum) + e));
  y = sum;
end Controller;
block Driver
  IntegerInput u;
  IntegerOutput y;
equation
  y = hold(u);
end Driver;
model Loop
  input Integer level;
  output Integer valve;
  Filter f;
  Controller c(limit = 105);
  Driver d;
equation
  f.u = sample(level, Clock(1, 1000)) "1 kHz";
  c.u = subSample(f.y, 10) "100 Hz";
  connect(c.y, d.u);
  valve = d.y;
end Loop;
