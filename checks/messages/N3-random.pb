process p begin integer x; x := random; print x end
