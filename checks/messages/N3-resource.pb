resource tape = 1;
process p
begin
  print tape
end
