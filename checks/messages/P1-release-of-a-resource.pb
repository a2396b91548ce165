resource tape = 2;
process p
begin
  request 2 of tape;
  print 1;
  release 2 of tape
end
