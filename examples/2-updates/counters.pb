// Two arms count up x three times each, and so lose up to four of six additions: each run prints a number from 2 to 6.
// That it can be 2 is a surprise to most: counters_two.run is such a run.
process counters
begin
  integer x, i, j;
  parbegin
    while i < 3 do x := x + 1; i := i + 1 od;
    while j < 3 do x := x + 1; j := j + 1 od
  parend;
  print x
end
