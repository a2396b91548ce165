// One half of the work of a night: a copy of a disk on two tapes.
resource tape = 2;
resource disk = 1;
process copy
begin
  hold 1 of disk do
    hold 2 of tape do print 1 od
  od
end
