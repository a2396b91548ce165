process p
begin
  go print 1;
  print 2
end
