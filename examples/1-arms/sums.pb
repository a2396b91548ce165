// Arms that write to different integers need not wait for one another: each adds up half of the numbers from 1 to 100,
// and the sum is 5050 in every order.
process sums
begin
  integer i, low, j, high;
  j := 50;
  parbegin
    while i < 50 do i := i + 1; low := low + i od;
    while j < 100 do j := j + 1; high := high + j od
  parend;
  print low + high
end
