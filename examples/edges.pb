// Where the integers end: quotients are cut toward zero, a remainder has the sign of the dividend, truth is 1 or 0,
// and a result that does not fit in 64 bits is a fault, which ends the process.
process edges
begin
  integer greatest, least;
  greatest := 9223372036854775807;
  least := -greatest - 1;
  print least;
  print least mod -1;
  print -7 div 2;
  print -7 mod 2;
  print not (least < greatest) or 3 <> 4 and 5 >= 5;
  print greatest + 1;
  print 0
end
