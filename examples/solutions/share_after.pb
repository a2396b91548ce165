// The cake of 7-outcomes/share.pb is divided after the parbegin, so the guests are counted in every run.
process host
begin
  integer guests, pieces;
  parbegin
    guests := 4;
    skip
  parend;
  pieces := 12 div guests
end
