// The largest capital, and so the largest amount of a hold: 1,000,000. A larger one is refused with `refused N4`.
resource cell = 1000000;
process p begin hold 1000000 of cell do print 1 od end
