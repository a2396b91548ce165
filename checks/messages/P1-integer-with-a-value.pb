process p
begin
  integer x := 1;
  print x
end
