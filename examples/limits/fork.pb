// As many arms as a parbegin may have: 16. One more is refused with `refused N1 fork`.
process p
begin
  parbegin
    print 1;
    print 2;
    print 3;
    print 4;
    print 5;
    print 6;
    print 7;
    print 8;
    print 9;
    print 10;
    print 11;
    print 12;
    print 13;
    print 14;
    print 15;
    print 16
  parend
end
