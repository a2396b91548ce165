process p
begin
  integer x;
  x := 2 3
end
