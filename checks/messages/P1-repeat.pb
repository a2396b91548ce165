process p begin integer x; repeat x := x + 1 until x = 3 end
