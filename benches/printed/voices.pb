// Three arms print two squares each, in any order.
process p
begin
  integer a, b, c;
  parbegin
    while a < 2 do a := a + 1; print a * a od;
    while b < 2 do b := b + 1; print 10 + b * b od;
    while c < 2 do c := c + 1; print 20 + c * c od
  parend
end
