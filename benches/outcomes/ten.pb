// Ten philosophers of one meal each.
resource fork1 = 1;
resource fork2 = 1;
resource fork3 = 1;
resource fork4 = 1;
resource fork5 = 1;
resource fork6 = 1;
resource fork7 = 1;
resource fork8 = 1;
resource fork9 = 1;
resource fork10 = 1;
process one
begin
  integer meals;
  while meals < 1 do
    hold 1 of fork1 do hold 1 of fork2 do meals := meals + 1; print meals od od
  od
end
process two
begin
  integer meals;
  while meals < 1 do
    hold 1 of fork2 do hold 1 of fork3 do meals := meals + 1; print meals od od
  od
end
process three
begin
  integer meals;
  while meals < 1 do
    hold 1 of fork3 do hold 1 of fork4 do meals := meals + 1; print meals od od
  od
end
process four
begin
  integer meals;
  while meals < 1 do
    hold 1 of fork4 do hold 1 of fork5 do meals := meals + 1; print meals od od
  od
end
process five
begin
  integer meals;
  while meals < 1 do
    hold 1 of fork5 do hold 1 of fork6 do meals := meals + 1; print meals od od
  od
end
process six
begin
  integer meals;
  while meals < 1 do
    hold 1 of fork6 do hold 1 of fork7 do meals := meals + 1; print meals od od
  od
end
process seven
begin
  integer meals;
  while meals < 1 do
    hold 1 of fork7 do hold 1 of fork8 do meals := meals + 1; print meals od od
  od
end
process eight
begin
  integer meals;
  while meals < 1 do
    hold 1 of fork8 do hold 1 of fork9 do meals := meals + 1; print meals od od
  od
end
process nine
begin
  integer meals;
  while meals < 1 do
    hold 1 of fork9 do hold 1 of fork10 do meals := meals + 1; print meals od od
  od
end
process ten
begin
  integer meals;
  while meals < 1 do
    hold 1 of fork10 do hold 1 of fork1 do meals := meals + 1; print meals od od
  od
end
