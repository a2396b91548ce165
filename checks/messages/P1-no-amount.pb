resource tape = 1;
process p
begin
  hold tape do
    print 1
  od
end
