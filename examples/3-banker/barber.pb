// The sleeping barber, as far as holds express it: a shop with three places, one of them the barber's chair. A customer
// who finds no place waits outside, where in the story he would leave: a hold waits, and never gives up. The barber is
// a resource, and sleeps while nobody holds him.
resource place = 3;
resource barber = 1;
process ann begin hold 1 of place do hold 1 of barber do print 1 od od end
process ben begin hold 1 of place do hold 1 of barber do print 2 od od end
process cleo begin hold 1 of place do hold 1 of barber do print 3 od od end
process dan begin hold 1 of place do hold 1 of barber do print 4 od od end
