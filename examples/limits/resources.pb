// As many resources as a program may have, 16, and as many as one hold may name. One more is refused with
// `refused N1 resources`.
resource r1 = 1;
resource r2 = 2;
resource r3 = 3;
resource r4 = 4;
resource r5 = 5;
resource r6 = 6;
resource r7 = 7;
resource r8 = 8;
resource r9 = 9;
resource r10 = 10;
resource r11 = 11;
resource r12 = 12;
resource r13 = 13;
resource r14 = 14;
resource r15 = 15;
resource r16 = 16;
process p
begin
  hold
    1 of r1,
    2 of r2,
    3 of r3,
    4 of r4,
    5 of r5,
    6 of r6,
    7 of r7,
    8 of r8,
    9 of r9,
    10 of r10,
    11 of r11,
    12 of r12,
    13 of r13,
    14 of r14,
    15 of r15,
    16 of r16
  do print 1 od
end
