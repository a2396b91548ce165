// Lesson 5, exercise 5: two readers that never end, each of which takes its next permit as soon as it has given back the
// last one. There are runs in which the writer never gets both permits, since one of the readers always has one.
resource permit = 2;
process reader1 begin while 1 do hold 1 of permit do print 1 od od end
process reader2 begin while 1 do hold 1 of permit do print 2 od od end
process writer begin hold 2 of permit do print 9 od end
