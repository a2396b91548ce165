process p
  print 1
end
