process p begin synchronized (x) { print 1 } end
