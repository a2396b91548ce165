process p begin integer x; if x /= 3 then print 1 fi end
