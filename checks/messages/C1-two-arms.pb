resource door = 1;
process p
begin
  parbegin
    hold 1 of door do print 1 od;
    hold 1 of door do print 2 od
  parend
end
