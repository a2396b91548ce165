resource s = 1;
process p
begin
  wait(s);
  print 1;
  signal(s)
end
