process p
begin
  integer x;
end
