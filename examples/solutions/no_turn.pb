// Lesson 2, exercise 4: Peterson's algorithm without `first`. If both arms say that they want to go in before either
// has looked, each waits for the other for ever. They are not stuck, since each can still make steps, but they get
// nowhere: this is a livelock. The banker knows nothing of it, since nothing is held.
process peterson
begin
  integer wants1, wants2, x, i, j;
  parbegin
    while i < 3 do
      wants1 := 1;
      while wants2 do skip od;
      x := x + 1;
      wants1 := 0;
      i := i + 1
    od;
    while j < 3 do
      wants2 := 1;
      while wants1 do skip od;
      x := x + 1;
      wants2 := 0;
      j := j + 1
    od
  parend;
  print x
end
