// A parbegin in an arm of another. What comes behind a parbegin begins when all its arms have ended, and the outer one
// waits for the inner one: 3 comes after 1 and 2, 5 after 3 and 4.
process p
begin
  parbegin
    begin
      parbegin print 1; print 2 parend;
      print 3
    end;
    print 4
  parend;
  print 5
end
