// The other half: a list of what is on a tape, kept on the disk.
resource tape = 2;
resource disk = 1;
process list
begin
  hold 1 of tape do
    hold 1 of disk do print 2 od
  od
end
