resource printer = 1; process p begin hold 1 of pritner do print 1 od end
