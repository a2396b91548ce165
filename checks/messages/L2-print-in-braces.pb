process p begin integer x; if x then { print 1 } fi end
