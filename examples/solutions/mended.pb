// Lesson 2, exercise 3: each arm counts in an integer of its own, and the sum is made when both have ended.
process p
begin
  integer x, y;
  parbegin
    x := x + 1;
    y := y + 1
  parend;
  print x + y
end
