// As many arms as a process may have: 64 with its body. One more is refused with `refused N1 arms`.
process p
begin
  parbegin
    print 1; print 2; print 3; print 4; print 5; print 6; print 7; print 8;
    print 9; print 10; print 11; print 12; print 13; print 14; print 15; print 16
  parend;
  parbegin
    print 17; print 18; print 19; print 20; print 21; print 22; print 23; print 24;
    print 25; print 26; print 27; print 28; print 29; print 30; print 31; print 32
  parend;
  parbegin
    print 33; print 34; print 35; print 36; print 37; print 38; print 39; print 40;
    print 41; print 42; print 43; print 44; print 45; print 46; print 47; print 48
  parend;
  parbegin
    print 49; print 50; print 51; print 52; print 53; print 54; print 55; print 56;
    print 57; print 58; print 59; print 60; print 61; print 62; print 63
  parend
end
