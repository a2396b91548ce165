process p begin print 1 // end
