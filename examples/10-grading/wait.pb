// Handed in: the second arm waits until the first has added. If it alone goes on it waits for ever.
process p
begin
  integer x, added;
  parbegin
    begin x := x + 1; added := 1 end;
    begin while not added do skip od; x := x + 1 end
  parend;
  print x
end
