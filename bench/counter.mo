model Counter
  Integer x;
equation
  when Clock(1, 1000) then
    x = previous(x) + 1;
  end when;
end Counter;
