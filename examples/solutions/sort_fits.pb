// Lesson 4, exercise 2: `sort` reads before it writes, and gives back the tapes that it has read. Its claim is 3.
resource tape = 4;
process copy begin hold 2 of tape do print 1 od end
process sort begin hold 2 of tape do print 2 od; hold 3 of tape do print 3 od end
