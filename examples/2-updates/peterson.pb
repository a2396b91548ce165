// Peterson's algorithm: two arms exclude one another by integers alone. An arm says that it wants to go in, lets the
// other go first, and waits until the other does not want to, or has let it go first. So no addition is lost, in any
// order of steps. It waits by asking again and again, which takes steps.
process peterson
begin
  integer wants1, wants2, first, x, i, j;
  parbegin
    while i < 3 do
      wants1 := 1;
      first := 2;
      while wants2 and first = 2 do skip od;
      x := x + 1;
      wants1 := 0;
      i := i + 1
    od;
    while j < 3 do
      wants2 := 1;
      first := 1;
      while wants1 and first = 1 do skip od;
      x := x + 1;
      wants2 := 0;
      j := j + 1
    od
  parend;
  print x
end
