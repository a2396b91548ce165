process p begin integer x; x := x + 1 -- add one
end
