model Counter
  Integer x;
equation
  when Clock(1, 2) then
    x = previous(x) + 1;
  end when;
end Counter;
