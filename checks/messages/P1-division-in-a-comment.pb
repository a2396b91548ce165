process p
begin
  integer x;
  x := 6 // 2;
  print x
end
