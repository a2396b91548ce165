process p begin integer x; if x = 1 tehn print 1 fi end
