process p begin print 1e3 end
