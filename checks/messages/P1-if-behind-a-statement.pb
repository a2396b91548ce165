process p
begin
  integer x;
  print 1 if x = 1
end
