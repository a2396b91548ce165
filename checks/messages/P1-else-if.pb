process p
begin
  integer x;
  if x = 0 then
    print 1
  else if x = 1 then
    print 2
  fi
end
