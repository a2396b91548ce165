// The same two jobs, each of which asks for both devices at once: it gets both or none.
resource tape = 1;
resource disk = 1;
process a begin hold 1 of tape, 1 of disk do print 1 od end
process b begin hold 1 of disk, 1 of tape do print 2 od end
