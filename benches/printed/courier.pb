// A maker puts three numbers into a cell, and a reader prints each: each waits for the other by asking again.
process p
begin
  integer cell, full, made, read;
  parbegin
    while made < 3 do
      made := made + 1;
      while full do skip od;
      cell := made * made;
      full := 1
    od;
    while read < 3 do
      read := read + 1;
      while not full do skip od;
      print cell;
      full := 0
    od
  parend
end
