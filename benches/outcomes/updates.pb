// Three arms add one to x, three times each.
process updates
begin
  integer x;
  parbegin
    begin x := x + 1; x := x + 1; x := x + 1 end;
    begin x := x + 1; x := x + 1; x := x + 1 end;
    begin x := x + 1; x := x + 1; x := x + 1 end
  parend
end
