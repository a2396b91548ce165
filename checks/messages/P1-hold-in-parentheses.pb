resource camera = 1;
process p
begin
  hold(1 of camera) do print 1 od
end
