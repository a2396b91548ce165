process p begin print 1: print 2 end
