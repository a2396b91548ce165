// What avoidance costs. `a` holds the tape and asks for the disk only if x is not 0, which it never is. The banker knows
// the claims and not the tests: while `a` has the tape it keeps the free disk from `b`, to no purpose.
resource tape = 1;
resource disk = 1;
process a
begin
  integer x;
  hold 1 of tape do
    print 1;
    if x then hold 1 of disk do print 2 od fi;
    print 3
  od
end
process b begin hold 1 of disk do hold 1 of tape do print 4 od od end
