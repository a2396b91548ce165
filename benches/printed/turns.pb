// Two arms print by turns: each computes what it prints, and waits for its turn by asking again.
process p
begin
  integer turn;
  parbegin
    begin
      while not turn = 0 do skip od; print 1 * 10 + 1; turn := 1;
      while not turn = 0 do skip od; print 2 * 10 + 1; turn := 1;
      while not turn = 0 do skip od; print 3 * 10 + 1; turn := 1
    end;
    begin
      while not turn = 1 do skip od; print 1 * 10 + 2; turn := 0;
      while not turn = 1 do skip od; print 2 * 10 + 2; turn := 0;
      while not turn = 1 do skip od; print 3 * 10 + 2; turn := 0
    end
  parend
end
