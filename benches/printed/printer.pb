// Three jobs share a printer: each computes a page, and prints its two lines while it holds the printer.
resource printer = 1;
process a
begin
  integer n, page;
  while n < 3 do n := n + 1; page := page + n od;
  hold 1 of printer do print page; print n od
end
process b
begin
  integer n, page;
  while n < 3 do n := n + 1; page := page + n * n od;
  hold 1 of printer do print page; print n od
end
process c
begin
  integer n, page;
  while n < 3 do n := n + 1; page := page + 2 * n od;
  hold 1 of printer do print page; print n od
end
