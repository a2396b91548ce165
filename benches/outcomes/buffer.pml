/* A producer and a consumer share a buffer of two cells, through which eight numbers go. Each waits by asking again.
   Each pick of buffer.pb is one transition, and the operands of an arm are its local variables. */
byte made, taken, even, odd, sum;

#define COMPARE d_step { left = (left < right); right = 0 }
#define EQUAL d_step { left = (left == right); right = 0 }
#define ADD d_step { left = left + right; right = 0 }
#define SUBTRACT d_step { left = left - right; right = 0 }
#define REMAINDER d_step { left = left % right; right = 0 }
#define STORE(integer) d_step { integer = left; left = 0 }
#define LEAVE_IF_ZERO(label) if :: d_step { left == 0 } -> goto label :: d_step { left != 0; left = 0 } fi

proctype producer()
{
  short left, right;
test:
  left = made;
  right = 8;
  COMPARE;
  LEAVE_IF_ZERO(ended);
wait:
  left = made;
  right = taken;
  SUBTRACT;
  right = 2;
  EQUAL;
  LEAVE_IF_ZERO(room);
  skip;
  goto wait;
room:
  left = made;
  right = 2;
  REMAINDER;
  right = 0;
  EQUAL;
  LEAVE_IF_ZERO(other);
  left = made;
  STORE(even);
  skip;
  goto filled;
other:
  left = made;
  STORE(odd);
filled:
  left = made;
  right = 1;
  ADD;
  STORE(made);
  skip;
  goto test;
ended:
  skip
}

proctype consumer()
{
  short left, right;
test:
  left = taken;
  right = 8;
  COMPARE;
  LEAVE_IF_ZERO(ended);
wait:
  left = made;
  right = taken;
  EQUAL;
  LEAVE_IF_ZERO(some);
  skip;
  goto wait;
some:
  left = taken;
  right = 2;
  REMAINDER;
  right = 0;
  EQUAL;
  LEAVE_IF_ZERO(other);
  left = sum;
  right = even;
  ADD;
  STORE(sum);
  skip;
  goto emptied;
other:
  left = sum;
  right = odd;
  ADD;
  STORE(sum);
emptied:
  left = taken;
  right = 1;
  ADD;
  STORE(taken);
  skip;
  goto test;
ended:
  skip
}

init { atomic { run producer(); run consumer() } }
