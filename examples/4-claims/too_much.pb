// A plan that is refused before anything runs: at its peak `sort` holds two tapes to read and three to write, and there
// are four.
resource tape = 4;
process copy begin hold 2 of tape do print 1 od end
process sort begin hold 2 of tape do hold 3 of tape do print 2 od od end
