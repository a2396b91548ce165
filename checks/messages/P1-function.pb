process p begin integer x; x := max(1, 2); print x end
