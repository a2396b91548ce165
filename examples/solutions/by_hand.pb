// Lesson 4, exercise 1: the claims of `p` are 4 tapes and 2 disks. The arms hold 1 and 2 tapes at once, with the one
// round them 4; the disks are never held in both branches.
resource tape = 9;
resource disk = 9;
process p
begin
  integer x;
  hold 1 of tape do
    if x then
      hold 2 of disk do print 1 od
    else
      parbegin
        hold 1 of tape do print 2 od;
        hold 2 of tape, 1 of disk do print 3 od
      parend
    fi
  od;
  hold 3 of tape do print 4 od
end
