model Fibonacci
  Integer last;
  Integer value(start = 1);
equation
  when Clock(1) then
    last = previous(value);
    value = last + previous(last);
  end when;
end Fibonacci;
