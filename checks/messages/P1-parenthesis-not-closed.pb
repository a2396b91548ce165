process p
begin
  integer x;
  x := (1 + 2;
  print x
end
