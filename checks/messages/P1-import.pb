process p begin integer x; import foo; x := 1 end
