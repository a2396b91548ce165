process p
begin
  integer x;
  x := 1,000
end
