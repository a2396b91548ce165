process p
begin
  integer x;
  while x < 3 loop x := x + 1 end loop
end
