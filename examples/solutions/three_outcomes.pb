// Three outcomes: x ends as 2 if the second arm assigns last, as 3 if it assigns first of all, and as 1 if it assigns
// between the reading and the assigning of the first arm.
process p
begin
  integer x;
  parbegin
    x := x + 1;
    x := 2
  parend
end
