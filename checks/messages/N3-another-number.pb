process p begin integer x1; x1 := 1; x2 := 2 end
