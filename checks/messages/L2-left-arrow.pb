process p
begin
  integer x;
  x ← 1
end
