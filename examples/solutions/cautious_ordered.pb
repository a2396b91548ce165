// Lesson 5, exercise 2: `b` takes the tape first too. It waits for the tape while this is not there, and for nothing else.
resource tape = 1;
resource disk = 1;
process a
begin
  integer x;
  hold 1 of tape do
    print 1;
    if x then hold 1 of disk do print 2 od fi;
    print 3
  od
end
process b begin hold 1 of tape do hold 1 of disk do print 4 od od end
