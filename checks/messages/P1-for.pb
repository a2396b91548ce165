process p
begin
  integer i;
  for i := 1 to 3 do print i od
end
