resource tape = 2
process p
begin
  print 1
end
