process p
begin
  integer x;
  print 1 if x else 0
end
