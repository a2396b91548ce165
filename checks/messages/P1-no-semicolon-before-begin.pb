process p
begin
  print 1
  begin print 2 end
end
