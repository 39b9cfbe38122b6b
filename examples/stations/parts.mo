connector Switch = input Boolean;
connector Belt "what a station tells the next and hears from it"
  Integer pieces "handed on so far";
  Boolean full "the next station takes no piece";
end Belt;
block Press "makes a piece at each tick, unless the next station was full"
  Switch on;
  Belt exit;
equation
  exit.pieces = previous(exit.pieces) + (if on and not previous(exit.full) then 1 else 0);
end Press;
block Buffer "holds pieces up to its size"
  parameter Integer size = 1;
  Belt entry;
  Belt exit;
  Integer held;
equation
  held = entry.pieces - exit.pieces;
  entry.full = held >= size;
  exit.pieces = previous(exit.pieces) + (if not exit.full and previous(held) > 0 then 1 else 0);
end Buffer;
block Packer "takes a piece at every n-th tick"
  parameter Integer n = 1;
  Belt entry;
  Integer turn;
equation
  turn = mod(previous(turn) + 1, n);
  entry.full = turn <> 0;
end Packer;
model Line "a press, a buffer and a packer"
  input Boolean on;
  Press press;
  Buffer buffer(size = 2);
  Packer packer(n = 3);
equation
  press.on = sample(on, Clock(1, 2));
  connect(press.exit, buffer.entry);
  connect(buffer.exit, packer.entry);
end Line;
model Direct "the same without a buffer"
  input Boolean on;
  Press press;
  Packer packer(n = 3);
equation
  press.on = sample(on, Clock(1, 2));
  connect(press.exit, packer.entry);
end Direct;
