// A buffer of two slots as a resource. Each item holds a slot from before it is made until after it is used, so that
// at most two items are under way; one machine makes items, and another one uses them.
resource slot = 2;
resource maker = 1;
resource user = 1;
process first
begin
  hold 1 of slot do
    hold 1 of maker do print 1 od;
    hold 1 of user do print 10 od
  od
end
process second
begin
  hold 1 of slot do
    hold 1 of maker do print 2 od;
    hold 1 of user do print 20 od
  od
end
process third
begin
  hold 1 of slot do
    hold 1 of maker do print 3 od;
    hold 1 of user do print 30 od
  od
end
