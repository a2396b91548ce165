resource tape = 1;
process p
begin
  hold 1 of tape do; print 1 od
end
