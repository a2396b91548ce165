// The banker makes somebody wait although there is enough. Two borrowers may come to need three florins each, and there
// are three. Once `a` has one, `b` may not have one of the two that are left: then neither could get all that it may
// still ask for.
resource florin = 3;
process a begin hold 1 of florin do print 1; hold 2 of florin do print 2 od od end
process b begin hold 1 of florin do print 3; hold 2 of florin do print 4 od od end
