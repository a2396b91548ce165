process p begin integer x; x := 6 div2 end
