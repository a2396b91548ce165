// The two halves of a table of six are put in order by two arms, and then merged and printed.
process p
begin
  integer a, b, c, d, e, f, t, u;
  a := 5; b := 3; c := 4; d := 6; e := 2; f := 1;
  parbegin
    begin
      if a > b then t := a; a := b; b := t else skip fi;
      if b > c then t := b; b := c; c := t else skip fi;
      if a > b then t := a; a := b; b := t else skip fi
    end;
    begin
      if d > e then u := d; d := e; e := u else skip fi;
      if e > f then u := e; e := f; f := u else skip fi;
      if d > e then u := d; d := e; e := u else skip fi
    end
  parend;
  print a; print d; print c; print f
end
