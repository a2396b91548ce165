process p begin print 1_000 end
