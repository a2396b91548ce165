process p
begin
  integer café;
  print 1
end
