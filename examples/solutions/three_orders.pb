// Lesson 1, exercise 2: three orders are possible. The 3 may come before, between and after the 1 and the 2.
process p
begin
  parbegin
    begin print 1; print 2 end;
    print 3
  parend
end
