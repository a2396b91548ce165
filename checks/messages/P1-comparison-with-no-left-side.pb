process p
begin
  integer x;
  if x >= 1 and <= 5 then print 1 fi
end
