resource fork[5] = 1;
process p begin print 1 end
