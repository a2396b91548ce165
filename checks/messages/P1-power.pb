process p
begin
  print 2 ** 3
end
