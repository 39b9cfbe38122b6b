model WaterMeter "litres by a contact that closes once for each, and bounces"
  input Boolean contact;
  Integer rest "ms since the contact closed before; 0 at the first time";
  Boolean counts "whether this is no bounce";
  Integer litres;
  Integer bounces;
  output Integer display = hold(litres);
equation
  when Clock(contact) then
    rest = integer(interval(rest) * 1000);
    counts = firstTick() or rest >= 400;
    litres = previous(litres) + (if counts then 1 else 0);
    bounces = previous(bounces) + (if counts then 0 else 1);
  end when;
end WaterMeter;
