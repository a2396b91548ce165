process p
begin
  integer x;
  x := read()
end
