resource tape = 1;
process p
begin
  integer x;
  hold x of tape do
    print 1
  od
end
