process guest()
begin
  print 1
end
