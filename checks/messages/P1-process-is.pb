process p is
begin
  print 1
end
