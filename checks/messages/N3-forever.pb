process p begin while forever do print 1 od end
