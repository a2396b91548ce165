process p
begin
  print 1

process q
begin
  print 2
end
