process p begin integer c; while c: print 1 end
