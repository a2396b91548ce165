// Handed in: both arms add to integers of their own, and a test at the end, meant as a proof, divides by 0.
process p
begin
  integer left, right;
  parbegin
    left := left + 1;
    right := right + 1
  parend;
  print (left + right) div (left - right)
end
