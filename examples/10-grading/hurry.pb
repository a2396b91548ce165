// Handed in: nothing keeps the arms apart. An addition can be lost, although `run` prints 2.
process p
begin
  integer x;
  parbegin
    x := x + 1;
    x := x + 1
  parend;
  print x
end
