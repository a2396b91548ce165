process p
begin
  integer x;
  if x equals 1 then print 1 fi
end
