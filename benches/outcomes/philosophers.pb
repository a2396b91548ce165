// Five philosophers of two meals each.
resource fork1 = 1;
resource fork2 = 1;
resource fork3 = 1;
resource fork4 = 1;
resource fork5 = 1;
process one
begin
  integer meals;
  while meals < 2 do
    hold 1 of fork1 do hold 1 of fork2 do meals := meals + 1; print meals od od
  od
end
process two
begin
  integer meals;
  while meals < 2 do
    hold 1 of fork2 do hold 1 of fork3 do meals := meals + 1; print meals od od
  od
end
process three
begin
  integer meals;
  while meals < 2 do
    hold 1 of fork3 do hold 1 of fork4 do meals := meals + 1; print meals od od
  od
end
process four
begin
  integer meals;
  while meals < 2 do
    hold 1 of fork4 do hold 1 of fork5 do meals := meals + 1; print meals od od
  od
end
process five
begin
  integer meals;
  while meals < 2 do
    hold 1 of fork5 do hold 1 of fork1 do meals := meals + 1; print meals od od
  od
end
