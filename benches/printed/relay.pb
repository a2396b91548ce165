// Three runners, one after another: each waits for the stick, doubles what it was given, prints it and hands the stick on.
process p
begin
  integer stick, value;
  value := 3;
  parbegin
    begin value := 2 * value + 1; print value; stick := 1 end;
    begin while not stick = 1 do skip od; value := 2 * value + 1; print value; stick := 2 end;
    begin while not stick = 2 do skip od; value := 2 * value + 1; print value; stick := 3 end
  parend;
  print value - stick
end
