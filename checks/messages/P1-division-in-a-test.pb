process p
begin
  integer x;
  if x // 2 = 0 then print 1 fi
end
