// Three philosophers at a round table, with a fork between each two of them. Each takes one fork and then another;
// with one fork each they would wait for ever, so the banker keeps the last one back.
resource north = 1;
resource east = 1;
resource west = 1;
process hypatia
begin
  integer meals;
  while meals < 2 do
    hold 1 of north do hold 1 of east do meals := meals + 1; print meals od od
  od
end
process plato
begin
  integer meals;
  while meals < 2 do
    hold 1 of east do hold 1 of west do meals := meals + 1; print meals od od
  od
end
process spinoza
begin
  integer meals;
  while meals < 2 do
    hold 1 of west do hold 1 of north do meals := meals + 1; print meals od od
  od
end
