/* Three arms add one to x, three times each. Each pick of updates.pb is one transition, and the operands of an arm are
   its local variables. */
byte x;

#define COUNT left = x; right = 1; d_step { left = left + right; right = 0 } d_step { x = left; left = 0 }

proctype arm()
{
  byte left, right;
  COUNT;
  COUNT;
  COUNT;
  skip
}

init { atomic { run arm(); run arm(); run arm() } }
