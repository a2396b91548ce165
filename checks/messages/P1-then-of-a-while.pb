process p
begin
  integer x;
  while x < 3 then x := x + 1 od
end
