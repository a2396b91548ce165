resource a = 1; b = 1;
process p begin print 1 end
