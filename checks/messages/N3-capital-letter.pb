process p
begin
  integer x;
  X := 1
end
