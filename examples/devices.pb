// Two jobs want the same tape and the same disk, in opposite order. Taken one by one, each could end up with one
// device in its hands, waiting for the other: the banker never lets it come to that.
resource tape = 1;
resource disk = 1;
process a
begin
  hold 1 of tape do hold 1 of disk do print 1 od od
end
process b
begin
  hold 1 of disk do hold 1 of tape do print 2 od od
end
