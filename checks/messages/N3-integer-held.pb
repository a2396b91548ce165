process p
begin
  integer x;
  hold 1 of x do x := x + 1 od
end
