resource tape = 3; process p begin hold 1+1 of tape do print 1 od end
