process p begin foo(1) end
