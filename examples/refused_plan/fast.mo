model Fast
  Integer count;
equation
  when Clock(1, 1000000) then
    count = previous(count) + 1;
  end when;
end Fast;
