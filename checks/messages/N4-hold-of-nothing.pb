resource tape = 1;
process p
begin
  hold 0 of tape do
    print 1
  od
end
