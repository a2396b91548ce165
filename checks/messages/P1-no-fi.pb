process p
begin
  integer x;
  if x = 0 then
    print 1
end
