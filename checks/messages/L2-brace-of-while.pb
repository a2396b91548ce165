process p
begin
  integer x;
  while x < 3 {
    x := x + 1
  }
end
