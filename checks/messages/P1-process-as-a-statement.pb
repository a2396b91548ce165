process p begin q; print 1 end process q begin print 2 end
