process p
begin
  integer x;
  if x = 0
    print 1
  fi
end
