resource door = 1; process p begin door.acquire(); print 1 end
