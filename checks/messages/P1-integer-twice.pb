process p
begin
  integer x;
  integer y;
  print x
end
