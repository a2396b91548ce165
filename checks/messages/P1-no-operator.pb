process p
begin
  integer x;
  print x where x = 1
end
