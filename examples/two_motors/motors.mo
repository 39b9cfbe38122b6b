block Motor "goes up to three steps towards its reference at each tick"
  Clock c;
  Integer reference;
  Integer position;
equation
  when c then
    position = previous(position) + max(-3, min(3, reference - previous(position)));
  end when;
end Motor;
model TwoMotors
  input Integer target;
  Motor lead(c = Clock(1, 4));
  Motor follow(c = Clock(1, 3));
  output Integer gap;
equation
  lead.reference = sample(target);
  follow.reference = noClock(lead.position);
  gap = hold(lead.position) - hold(follow.position);
end TwoMotors;
