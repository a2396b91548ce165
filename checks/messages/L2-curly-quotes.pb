process p
begin
  print “hello”
end
