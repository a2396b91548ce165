process p
begin
  parbegin
    print 1;
    print 2
  end
  parend
end
