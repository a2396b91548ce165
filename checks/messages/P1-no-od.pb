process p
begin
  integer x;
  while x < 3 do
    x := x + 1
end
