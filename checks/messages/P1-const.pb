const n = 5; process p begin print n end
