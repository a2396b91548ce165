// Lesson 3, exercise 4: with two permits at most two read at once.
resource permit = 2;
process reader1 begin hold 1 of permit do print 1 od end
process writer begin hold 2 of permit do print 9 od end
process reader2 begin hold 1 of permit do print 2 od end
process reader3 begin hold 1 of permit do print 3 od end
