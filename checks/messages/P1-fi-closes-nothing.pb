process p
begin
  print 1;
  fi
end
