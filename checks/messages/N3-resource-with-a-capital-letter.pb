resource tape = 1;
process p
begin
  hold 1 of Tape do
    print 1
  od
end
