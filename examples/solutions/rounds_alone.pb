// Lesson 1, exercise 3: each arm goes through its own rounds, and no arm waits for the other one between them.
process p
begin
  integer i, j;
  parbegin
    while i < 3 do print i; i := i + 1 od;
    while j < 3 do print j + 10; j := j + 1 od
  parend
end
