/* Three readers and two writers, twice each. Each pick of readers.pb is one transition, and the operands of a process are
   its local variables. Whoever asks for permits asks for all that it claims, so the banker lends them if there are enough. */
byte permits = 3;

proctype user(byte claim)
{
  byte n, left, right;
test:
  left = n;
  right = 2;
  d_step { left = (left < right); right = 0 }
  if
  :: d_step { left == 0 } -> goto ended
  :: d_step { left != 0; left = 0 }
  fi;
  d_step { permits >= claim; permits = permits - claim }
  left = n;
  right = 1;
  d_step { left = left + right; right = 0 }
  d_step { n = left; left = 0 }
  left = n;
  left = 0; /* the line that is printed */
  permits = permits + claim;
  skip;
  goto test;
ended:
  skip
}

init { atomic { run user(1); run user(1); run user(1); run user(3); run user(3) } }
