process p
begin
  integer x;
  read x;
  print x
end
