process p
begin
  print 1
end
resource r = 1;
