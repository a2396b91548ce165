process p
begin
  print 1
  od;
  print 2
end
