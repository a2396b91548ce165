// As long as a name may be: 32 bytes. A longer one is refused with `refused L4`.
process a_process_with_a_name_of_32bytes
begin
  integer an_integer_with_a_name_of_32_byt;
  an_integer_with_a_name_of_32_byt := 1;
  print an_integer_with_a_name_of_32_byt
end
