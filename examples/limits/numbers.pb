// The largest number in a text, and the least integer, which has to be worked out. A larger number is refused with
// `refused L3`; a result that does not fit is the fault `overflow`.
process p
begin
  print 9223372036854775807;
  print -9223372036854775807 - 1;
  print -(-9223372036854775807 - 1)
end
