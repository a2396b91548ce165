process p begin print 7 rem 2 end
