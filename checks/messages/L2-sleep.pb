process p begin Thread.sleep(1) end
