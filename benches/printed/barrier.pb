// Two phases: two arms compute and print, and only then two others.
process p
begin
  integer a, b;
  parbegin
    begin while a < 4 do a := a + 1 od; print a end;
    begin while b < 6 do b := b + 2 od; print b end
  parend;
  parbegin
    begin while a > 0 do a := a - 1 od; print a + b end;
    begin while b > 3 do b := b - 1 od; print a - b end
  parend
end
