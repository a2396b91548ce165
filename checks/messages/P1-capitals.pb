process p
BEGIN
  print 1
END
