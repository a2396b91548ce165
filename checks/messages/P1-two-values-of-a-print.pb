process p
begin
  integer x, y;
  print x, y
end
