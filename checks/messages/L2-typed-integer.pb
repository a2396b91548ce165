process p begin x : integer; x := 1 end
