process p
begin
  integer x;
  do x := x + 1 while x < 3
end
