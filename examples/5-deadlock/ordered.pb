// The same two transfers, which both take the accounts in one order. That prevents a deadlock without a banker, and
// this banker finds nothing to keep back: a request waits only while the account that it asks for is not there.
resource savings = 1;
resource giro = 1;
process deposit
begin
  hold 1 of giro do
    print 1;
    hold 1 of savings do print 2 od
  od
end
process withdraw
begin
  hold 1 of giro do
    print 3;
    hold 1 of savings do print 4 od
  od
end
