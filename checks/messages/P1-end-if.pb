process p
begin
  integer x;
  if x = 1 then print 1 end if
end
