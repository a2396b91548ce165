// Peterson's algorithm: two arms, one at a time in its critical section, where each adds one to x and prints it.
process p
begin
  integer want1, want2, turn, x;
  parbegin
    begin
      want1 := 1; turn := 2;
      while want2 and turn = 2 do skip od;
      x := x + 1; print x; want1 := 0
    end;
    begin
      want2 := 1; turn := 1;
      while want1 and turn = 1 do skip od;
      x := x + 1; print x; want2 := 0
    end
  parend
end
