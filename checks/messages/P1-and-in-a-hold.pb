resource a = 1;
resource b = 2;
process p
begin
  hold 1 of a and 2 of b do
    print 1
  od
end
