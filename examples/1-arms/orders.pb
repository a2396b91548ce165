// Two arms print twice each. Within an arm the order is fixed, between the arms it is not: six orders are possible,
// and each seed of `record --seed` draws one of them.
process p
begin
  parbegin
    begin print 1; print 2 end;
    begin print 10; print 20 end
  parend;
  print 100
end
