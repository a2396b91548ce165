process p
begin
  integer x;
  x++
end
