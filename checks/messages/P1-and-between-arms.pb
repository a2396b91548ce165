process p
begin
  parbegin
    print 1 and
    print 2
  parend
end
