// Three readers and two writers, twice each. A reader holds one of three permits, a writer all of them.
resource permit = 3;
process reader1
begin
  integer n;
  while n < 2 do
    hold 1 of permit do n := n + 1; print n od
  od
end
process reader2
begin
  integer n;
  while n < 2 do
    hold 1 of permit do n := n + 1; print n od
  od
end
process reader3
begin
  integer n;
  while n < 2 do
    hold 1 of permit do n := n + 1; print n od
  od
end
process writer1
begin
  integer n;
  while n < 2 do
    hold 3 of permit do n := n + 1; print n od
  od
end
process writer2
begin
  integer n;
  while n < 2 do
    hold 3 of permit do n := n + 1; print n od
  od
end
