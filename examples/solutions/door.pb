// Lesson 2, exercise 5: a hold does not keep two arms of one process apart. Both may hold the door at once, so the claim
// of the process is 2, and with one door the program is refused. Holds are between processes.
resource door = 1;
process p
begin
  integer x;
  parbegin
    hold 1 of door do x := x + 1 od;
    hold 1 of door do x := x + 1 od
  parend;
  print x
end
