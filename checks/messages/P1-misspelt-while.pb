process p begin integer x; whlie x < 3 do x := x + 1 od end
