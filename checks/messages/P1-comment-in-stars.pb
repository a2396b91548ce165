(* it is *) process p begin print 1 end
