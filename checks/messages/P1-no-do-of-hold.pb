resource tape = 1;
process p
begin
  hold 1 of tape;
  print 1
end
