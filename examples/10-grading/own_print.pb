// Handed in: the second arm prints as soon as it has added. It may come first, and then prints 1.
process p
begin
  integer left, right;
  parbegin
    left := left + 1;
    begin right := right + 1; print left + right end
  parend
end
