process p begin skp end
