process p
begin
  while true do
    print 1
  od
end
