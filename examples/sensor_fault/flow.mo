model Flow "counts how often at most a third of the rated flow is left"
  input Integer rated;
  input Integer actual;
  Integer drops;
equation
  when Clock(div(rated, actual) > 2) then
    drops = previous(drops) + 1;
  end when;
end Flow;
