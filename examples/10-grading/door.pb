// Handed in: each arm adds behind a door. It is refused, since arms of one process claim together: there would have to be
// two places at the door, and then both arms could go in at once.
resource door = 1;
process p
begin
  integer x;
  parbegin
    hold 1 of door do x := x + 1 od;
    hold 1 of door do x := x + 1 od
  parend;
  print x
end
