process p
begin
  print 6 // the first of two numbers
  print 7
end
