// How many hours, minutes and seconds a number of seconds is.
process clock
begin
  integer seconds, minutes;
  seconds := 98765;
  minutes := seconds div 60;
  print minutes div 60;
  print minutes mod 60;
  print seconds mod 60
end
