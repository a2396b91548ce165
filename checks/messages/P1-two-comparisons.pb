process p
begin
  integer x;
  if 0 < x < 9 then
    print 1
  fi
end
