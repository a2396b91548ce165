// The plan of a week, with one tape more.
resource tape = 5;
resource disk = 2;
process backup
begin
  hold 2 of tape do
    hold 1 of disk do print 1 od
  od
end
process sort
begin
  hold 1 of tape do print 2 od;
  parbegin
    hold 1 of tape do print 3 od;
    hold 2 of tape do
      hold 1 of disk do print 4 od
    od
  parend
end
