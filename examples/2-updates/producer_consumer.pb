// A producer and a consumer share a buffer of one cell. Each integer is assigned to by one side at a time: `full` says
// whose turn it is. The producer holds the card reader and the consumer the printer while they work.
resource reader = 1;
resource printer = 1;
process copy
begin
  integer made, cell, full, taken;
  parbegin
    hold 1 of reader do
      while made < 4 do
        while full do skip od;
        made := made + 1;
        cell := made * made;
        full := 1
      od
    od;
    hold 1 of printer do
      while taken < 4 do
        while not full do skip od;
        print cell;
        taken := taken + 1;
        full := 0
      od
    od
  parend
end
