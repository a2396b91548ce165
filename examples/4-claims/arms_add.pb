// Arms hold at the same time, so their claims add up: 2 and 3 at once, with the 1 round the parbegin, make 6.
resource tape = 6;
process p
begin
  hold 1 of tape do
    parbegin
      hold 2 of tape do print 2 od;
      hold 3 of tape do print 3 od
    parend
  od
end
