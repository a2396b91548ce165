// Two arms add one to x, twelve times each.
process counters
begin
  integer x, i, j;
  parbegin
    while i < 12 do x := x + 1; i := i + 1 od;
    while j < 12 do x := x + 1; j := j + 1 od
  parend
end
