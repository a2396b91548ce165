/* Two arms add one to x, twelve times each.
   Each pick of counters.pb is one transition, and the operands of an arm are its local variables. */
byte x, i, j;

#define COMPARE d_step { left = (left < right); right = 0 }
#define ADD d_step { left = left + right; right = 0 }
#define STORE(integer) d_step { integer = left; left = 0 }
#define LEAVE_IF_ZERO(label) if :: d_step { left == 0 } -> goto label :: d_step { left != 0; left = 0 } fi

proctype one()
{
  byte left, right;
test:
  left = i;
  right = 12;
  COMPARE;
  LEAVE_IF_ZERO(ended);
  left = x;
  right = 1;
  ADD;
  STORE(x);
  left = i;
  right = 1;
  ADD;
  STORE(i);
  skip;
  goto test;
ended:
  skip
}

proctype two()
{
  byte left, right;
test:
  left = j;
  right = 12;
  COMPARE;
  LEAVE_IF_ZERO(ended);
  left = x;
  right = 1;
  ADD;
  STORE(x);
  left = j;
  right = 1;
  ADD;
  STORE(j);
  skip;
  goto test;
ended:
  skip
}

init { atomic { run one(); run two() } }
