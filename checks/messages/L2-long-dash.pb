process p
begin
  print 3 – 1
end
