// Lesson 5, exercise 3: each part is a process of its own, with a claim on one account. Nothing is kept back, but nothing
// says any more that 1 is printed before 2.
resource savings = 1;
resource giro = 1;
process deposit1 begin hold 1 of giro do print 1 od end
process deposit2 begin hold 1 of savings do print 2 od end
process withdraw1 begin hold 1 of savings do print 3 od end
process withdraw2 begin hold 1 of giro do print 4 od end
