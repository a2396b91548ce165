process p begin integer x; x := x > 0 ? 1 : 2 end
