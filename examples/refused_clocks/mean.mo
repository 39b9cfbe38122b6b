model Mean
  input Integer level;
  Integer mean;
equation
  when Clock(1, 100) then
    mean = div(level + previous(mean), 2);
  end when;
end Mean;
