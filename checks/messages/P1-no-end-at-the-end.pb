process p
begin
  print 1
