// Lesson 3, exercise 2: with four florins a request waits for nothing except the cash. Whoever asks for two more finds
// two there, or the other one has all three and will give them back.
resource florin = 4;
process a begin hold 1 of florin do print 1; hold 2 of florin do print 2 od od end
process b begin hold 1 of florin do print 3; hold 2 of florin do print 4 od od end
