// Two holds in one another: the claim is 2 of 3 tapes. Its object is forged in many ways beside it.
resource tape = 3;
process p begin hold 1 of tape do hold 1 of tape do print 1 od od end
