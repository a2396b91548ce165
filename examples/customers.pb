// Dijkstra's banker has ten florins and three customers, who may come to need eight, six and four. He lends while
// what is left, with what comes back, is enough to finish with all of them in some order.
resource florin = 10;
process a begin hold 4 of florin do hold 4 of florin do skip od od end
process b begin hold 2 of florin do hold 1 of florin do hold 3 of florin do skip od od od end
process c begin hold 1 of florin do hold 3 of florin do skip od od end
