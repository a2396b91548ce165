resource tape = 1;
resource disk = 2;
process p
begin
  hold 2 of tape do print 1 od
end
process q
begin
  hold 1 of tape, 3 of disk do print 2 od
end
