// Handed in: each arm counts for itself, and the sum is printed when both have ended. Right under every schedule.
process p
begin
  integer left, right;
  parbegin
    left := left + 1;
    right := right + 1
  parend;
  print left + right
end
