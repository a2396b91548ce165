integer x;
process p
begin
  x := 1
end
