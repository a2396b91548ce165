process p begin   process q begin print 1 end;   print 2 end
