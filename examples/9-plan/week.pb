// The plan of a week, as it is handed in: how many tapes and disks does it need?
resource tape = 4;
resource disk = 2;
process backup
begin
  hold 2 of tape do
    hold 1 of disk do print 1 od
  od
end
process sort
begin
  hold 1 of tape do print 2 od;
  parbegin
    hold 1 of tape do print 3 od;
    hold 2 of tape do
      hold 1 of disk do print 4 od
    od
  parend
end
