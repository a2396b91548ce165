// Two arms add one to the same integer. To read it and to assign to it are two steps, so if both arms read it before
// either assigns, one of the two additions is lost. `run` goes arm by arm and loses none; the run of lost.run loses one.
process p
begin
  integer x;
  parbegin
    x := x + 1;
    x := x + 1
  parend;
  print x
end
