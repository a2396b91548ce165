process p begin integer x; x := null; print x end
