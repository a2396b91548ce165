// Three arms add up numbers of their own; the sum of all is printed when they have ended.
process p
begin
  integer a, b, c, i, j, k;
  parbegin
    while i < 3 do i := i + 1; a := a + i od;
    while j < 3 do j := j + 1; b := b + j * j od;
    while k < 3 do k := k + 1; c := c + 2 * k od
  parend;
  print a + b + c
end
