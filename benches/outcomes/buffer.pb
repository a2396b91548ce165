// A producer and a consumer share a buffer of two cells, through which eight numbers go. Each waits by asking again.
process buffer
begin
  integer made, taken, even, odd, sum;
  parbegin
    while made < 8 do
      while made - taken = 2 do skip od;
      if made mod 2 = 0 then even := made else odd := made fi;
      made := made + 1
    od;
    while taken < 8 do
      while made = taken do skip od;
      if taken mod 2 = 0 then sum := sum + even else sum := sum + odd fi;
      taken := taken + 1
    od
  parend
end
