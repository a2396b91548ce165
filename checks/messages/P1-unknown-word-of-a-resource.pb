resource door = 1;
process p
begin
  unlatch door;
  print 1
end
