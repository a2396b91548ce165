process p
begin
  int x;
  x := 1
end
