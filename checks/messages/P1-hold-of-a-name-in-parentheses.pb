resource camera = 1;
process p
begin
  hold(camera) do print 1 od
end
