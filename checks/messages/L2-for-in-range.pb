process p begin integer i; for i in range(3): print i end
