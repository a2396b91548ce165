resource camera = 1;
process p
begin
  use 1 of camera do print 1 od
end
