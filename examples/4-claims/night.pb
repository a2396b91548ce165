// The plan of a night: ten jobs, four tapes, three disks and two printers. Each job says by its holds what it needs and
// when. The banker starts as many side by side as can all be brought to their end.
resource tape = 4;
resource disk = 3;
resource printer = 2;
process backup begin hold 2 of tape, 1 of disk do print 1 od end
process payroll begin hold 1 of tape do print 2; hold 1 of printer do print 3 od od end
process sort begin hold 1 of disk do hold 3 of tape do print 4 od od end
process merge begin hold 2 of tape do hold 1 of disk do print 5 od od end
process ledger begin hold 1 of disk, 1 of printer do print 6 od end
process labels begin hold 2 of printer do print 7 od end
process archive begin hold 2 of disk do hold 2 of tape do print 8 od od end
process stock
begin
  parbegin
    hold 1 of tape do print 9 od;
    hold 1 of disk do print 10 od
  parend;
  hold 1 of printer do print 11 od
end
process letters
begin
  integer copies;
  while copies < 3 do
    hold 1 of printer do copies := copies + 1; print 100 + copies od
  od
end
process audit begin hold 3 of disk do hold 1 of printer do print 12 od od end
