// Two-phase holding. Each transfer takes both accounts before it gives back either, so nobody sees the money on its
// way; and the two take them in opposite order, which without a banker can end in a deadlock.
resource savings = 1;
resource giro = 1;
process deposit
begin
  hold 1 of giro do
    print 1;
    hold 1 of savings do print 2 od
  od
end
process withdraw
begin
  hold 1 of savings do
    print 3;
    hold 1 of giro do print 4 od
  od
end
