resource camera = 1;
process p
begin
  with camera do print 1 od
end
