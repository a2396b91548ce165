// Peterson's algorithm: two arms exclude one another by integers alone, and add one to x six times each.
process peterson
begin
  integer wants1, wants2, first, x, i, j;
  parbegin
    while i < 6 do
      wants1 := 1;
      first := 2;
      while wants2 and first = 2 do skip od;
      x := x + 1;
      wants1 := 0;
      i := i + 1
    od;
    while j < 6 do
      wants2 := 1;
      first := 1;
      while wants1 and first = 1 do skip od;
      x := x + 1;
      wants2 := 0;
      j := j + 1
    od
  parend
end
