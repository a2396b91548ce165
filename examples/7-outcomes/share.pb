// One arm counts the guests, the other one divides a cake of 12 pieces among them. If it divides too early, there are no
// guests yet, and the process faults.
process host
begin
  integer guests, pieces;
  parbegin
    guests := 4;
    pieces := 12 div guests
  parend
end
