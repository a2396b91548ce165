process p
begin
  boolean done = false;
  print 1
end
