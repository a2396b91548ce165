process p
begin
  cobegin
    print 1;
    print 2
  coend
end
