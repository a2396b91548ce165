parbegin
  process p begin print 1 end;
  process q begin print 2 end
parend
