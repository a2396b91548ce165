process p begin integer x; x := x++ end
