// Handed in: as a text in another language, so that it is refused.
process p
begin
  integer x;
  x = 2;
  print x
end
