process p
begin
  integer end;
  print 1
end
