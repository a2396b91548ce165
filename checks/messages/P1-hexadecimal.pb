process p begin integer x; x := 0xFF end
