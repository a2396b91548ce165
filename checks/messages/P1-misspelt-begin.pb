process p beign print 1 end
