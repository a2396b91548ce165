// A fault in one arm ends its whole process: the other arms stop where they are, and what they hold comes back. Here it
// brings back the tape for which another process waits.
resource tape = 2;
process broken
begin
  integer x;
  parbegin
    hold 1 of tape do while 1 do x := x + 1 od od;
    print 1 div x
  parend;
  print x
end
process sound
begin
  print 6;
  hold 2 of tape do print 7 od
end
