process p begin sleep(1); print 1 end
