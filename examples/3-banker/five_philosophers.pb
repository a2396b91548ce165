// Five philosophers at a round table, with a fork between each two of them. Each takes the fork at the left and then
// the one at the right. The fifth waits for his first fork, although it is free: with it each would have one fork,
// and nobody could eat.
resource fork1 = 1;
resource fork2 = 1;
resource fork3 = 1;
resource fork4 = 1;
resource fork5 = 1;
process one begin hold 1 of fork1 do hold 1 of fork2 do print 1 od od end
process two begin hold 1 of fork2 do hold 1 of fork3 do print 2 od od end
process three begin hold 1 of fork3 do hold 1 of fork4 do print 3 od od end
process four begin hold 1 of fork4 do hold 1 of fork5 do print 4 od od end
process five begin hold 1 of fork5 do hold 1 of fork1 do print 5 od od end
