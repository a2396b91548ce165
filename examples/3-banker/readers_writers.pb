// Readers and writers. There are three permits: a reader holds one of them, a writer all three. So up to three read at
// once, and nobody else is there while somebody writes.
resource permit = 3;
process reader1 begin hold 1 of permit do print 1 od end
process writer begin hold 3 of permit do print 9 od end
process reader2 begin hold 1 of permit do print 2 od end
process reader3 begin hold 1 of permit do print 3 od end
