process p begin print1 end
