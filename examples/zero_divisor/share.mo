model Share
  Integer count;
  Integer share;
equation
  when Clock(1) then
    count = previous(count) + 1;
    share = div(60, 3 - count);
  end when;
end Share;
