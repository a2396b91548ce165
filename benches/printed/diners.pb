// Two diners with two forks: each thinks, eats, and prints how often it has eaten.
resource left = 1;
resource right = 1;
process a
begin
  integer thought, eaten;
  while eaten < 2 do
    thought := thought + 3 * eaten + 1;
    hold 1 of left do hold 1 of right do eaten := eaten + 1 od od;
    print eaten
  od
end
process b
begin
  integer thought, eaten;
  while eaten < 2 do
    thought := thought + 5 * eaten + 2;
    hold 1 of right do hold 1 of left do eaten := eaten + 1 od od;
    print eaten
  od
end
