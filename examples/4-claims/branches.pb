// A claim is what a process may come to hold, whichever way its tests go: the greatest of the branches, though this
// test never chooses the greater one; and not the sum of two holds of which one comes after the other.
resource tape = 5;
process p
begin
  integer x;
  if x then hold 4 of tape do print 1 od else hold 2 of tape do print 2 od fi;
  hold 3 of tape do print 3 od
end
