process p begin integer x, y; x, y := 1, 2 end
