model Controller "integral control of a level, with a limit"
  Integer level(start = 100);
  Integer error "set point minus level";
  Integer sum;
  Boolean limited;
equation
  when Clock(1, 10) then // 10 Hz
    level = previous(level) + div(previous(sum), 4);
    error = 60 - level;
    sum = max(-50, min(50, previous(sum) + error));
    limited = sum <= -50 or sum >= 50;
  end when;
end Controller;
