resource tape = 1; process p begin hold 1 fo tape do print 1 od end
