process p begin integer x; x := q(); print x end
process q begin print 1 end
