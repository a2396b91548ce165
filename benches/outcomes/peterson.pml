/* Peterson's algorithm: two arms exclude one another by integers alone, and add one to x six times each.
   Each pick of peterson.pb is one transition, and the operands of an arm are its local variables. */
byte wants1, wants2, first, x, i, j;

#define COMPARE d_step { left = (left < right); right = 0 }
#define ADD d_step { left = left + right; right = 0 }
#define STORE(integer) d_step { integer = left; left = 0 }
#define LEAVE_IF_ZERO(label) if :: d_step { left == 0 } -> goto label :: d_step { left != 0; left = 0 } fi

proctype one()
{
  byte left, right, third;
test:
  left = i;
  right = 6;
  COMPARE;
  LEAVE_IF_ZERO(ended);
  left = 1;
  STORE(wants1);
  left = 2;
  STORE(first);
wait:
  left = wants2;
  right = first;
  third = 2;
  d_step { right = (right == third); third = 0 }
  d_step { left = (left && right); right = 0 }
  LEAVE_IF_ZERO(alone);
  skip;
  goto wait;
alone:
  left = x;
  right = 1;
  ADD;
  STORE(x);
  left = 0;
  STORE(wants1);
  left = i;
  right = 1;
  ADD;
  STORE(i);
  skip;
  goto test;
ended:
  skip
}

proctype two()
{
  byte left, right, third;
test:
  left = j;
  right = 6;
  COMPARE;
  LEAVE_IF_ZERO(ended);
  left = 1;
  STORE(wants2);
  left = 1;
  STORE(first);
wait:
  left = wants1;
  right = first;
  third = 1;
  d_step { right = (right == third); third = 0 }
  d_step { left = (left && right); right = 0 }
  LEAVE_IF_ZERO(alone);
  skip;
  goto wait;
alone:
  left = x;
  right = 1;
  ADD;
  STORE(x);
  left = 0;
  STORE(wants2);
  left = j;
  right = 1;
  ADD;
  STORE(j);
  skip;
  goto test;
ended:
  skip
}

init { atomic { run one(); run two() } }
