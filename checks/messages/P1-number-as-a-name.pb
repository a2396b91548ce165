resource 2 tape;
process p begin print 1 end
