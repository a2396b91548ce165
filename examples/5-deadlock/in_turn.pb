// The same two transfers, each of which gives back the first account before it takes the second. Nobody holds one and
// asks for another, so there is no deadlock even without a banker. Yet this banker makes `withdraw` wait for an account
// that is there: it knows what a process may hold, and not when.
resource savings = 1;
resource giro = 1;
process deposit
begin
  hold 1 of giro do print 1 od;
  hold 1 of savings do print 2 od
end
process withdraw
begin
  hold 1 of savings do print 3 od;
  hold 1 of giro do print 4 od
end
