// Three arms add one to x, four times each.
process adders
begin
  integer x;
  parbegin
    begin x := x + 1; x := x + 1; x := x + 1; x := x + 1 end;
    begin x := x + 1; x := x + 1; x := x + 1; x := x + 1 end;
    begin x := x + 1; x := x + 1; x := x + 1; x := x + 1 end
  parend
end
