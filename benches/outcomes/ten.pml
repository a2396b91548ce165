/* Ten philosophers of one meal each, with a banker who lends a fork only if he can still finish with all of them.
   Each pick of ten.pb is one transition, and the operands of a philosopher are local variables. */
#define SEATS 10

/* For each fork one more than the philosopher who has it, or 0. */
byte owner[SEATS];

c_decl {
\#define MAY_TAKE_LEFT may_take(((P0 *)_this)->p, ((P0 *)_this)->p)
\#define MAY_TAKE_RIGHT may_take(((P0 *)_this)->p, (((P0 *)_this)->p + 1) % 10)
}

c_code {
/* Whether philosopher p may be lent a fork: it is free, and once it is lent all can finish in some order, each asking
   for both forks beside the seat. */
int may_take(int p, int fork)
{
  int owns[SEATS], finished[SEATS] = { 0 }, count = 0, found = 1, i;
  if (now.owner[fork])
    return 0;
  for (i = 0; i < SEATS; i++)
    owns[i] = now.owner[i];
  owns[fork] = p + 1;
  while (found) {
    found = 0;
    for (i = 0; i < SEATS; i++) {
      int next = (i + 1) % SEATS;
      if (!finished[i] && (!owns[i] || owns[i] == i + 1) && (!owns[next] || owns[next] == i + 1)) {
        finished[i] = found = 1;
        count++;
        if (owns[i] == i + 1) owns[i] = 0;
        if (owns[next] == i + 1) owns[next] = 0;
      }
    }
  }
  return count == SEATS;
}
}

proctype philosopher(byte p)
{
  byte meals, left, right;
test:
  left = meals;
  right = 1;
  d_step { left = (left < right); right = 0 }
  if
  :: d_step { left == 0 } -> goto ended
  :: d_step { left != 0; left = 0 }
  fi;
  d_step { c_expr { MAY_TAKE_LEFT }; owner[p] = p + 1 }
  d_step { c_expr { MAY_TAKE_RIGHT }; owner[(p + 1) % SEATS] = p + 1 }
  left = meals;
  right = 1;
  d_step { left = left + right; right = 0 }
  d_step { meals = left; left = 0 }
  left = meals;
  left = 0; /* the line that is printed */
  owner[(p + 1) % SEATS] = 0;
  owner[p] = 0;
  skip;
  goto test;
ended:
  skip
}

init { byte p; atomic { do :: p < SEATS -> run philosopher(p); p++ :: else -> break od } }
