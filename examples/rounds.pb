// Three rounds; in each two arms print, and the next round begins when both have ended.
process p
begin
  integer i;
  while i < 3 do
    parbegin
      print i;
      print i + 10
    parend;
    i := i + 1
  od
end
