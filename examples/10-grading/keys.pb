// Handed in: a second process goes first, with two keys that both take, in opposite order. The banker keeps the two from
// waiting for one another; without him, with `--lend cash`, it can come to a deadlock.
resource red = 1;
resource blue = 1;
process p
begin
  integer x;
  hold 1 of red do hold 1 of blue do x := x + 1 od od;
  x := x + 1;
  print x
end
process q
begin
  hold 1 of blue do hold 1 of red do skip od od
end
