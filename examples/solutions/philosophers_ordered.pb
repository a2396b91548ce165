// Lesson 5, exercise 4: the fifth philosopher takes the fork with the lesser number first, as all the others do. A fork
// that is free is never kept back.
resource fork1 = 1;
resource fork2 = 1;
resource fork3 = 1;
resource fork4 = 1;
resource fork5 = 1;
process one begin hold 1 of fork1 do hold 1 of fork2 do print 1 od od end
process two begin hold 1 of fork2 do hold 1 of fork3 do print 2 od od end
process three begin hold 1 of fork3 do hold 1 of fork4 do print 3 od od end
process four begin hold 1 of fork4 do hold 1 of fork5 do print 4 od od end
process five begin hold 1 of fork1 do hold 1 of fork5 do print 5 od od end
