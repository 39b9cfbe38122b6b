model Sign
  parameter Integer a = 3;
  parameter Integer b = 2;
  Integer y = a * -b;
end Sign;
