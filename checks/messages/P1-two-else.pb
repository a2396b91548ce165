process p
begin
  integer x;
  if x = 0 then
    print 1
  else
    print 2
  else
    print 3
  fi
end
