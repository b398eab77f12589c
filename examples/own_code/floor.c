#include "fixif.h"
STEP(32, 1, 4, 1)
{
  IN(u0, 16);
  a = 0;
  a += MUL(1, u0, 0);
  r0 = LOW(SAR(a, 0), 16);
  a = 0;
  a += MUL(1, s0, 0);
  r1 = LOW(SAR(a, 0), 16);
  a = 0;
  a += MUL(3199, u0, 0);
  a += MUL(6398, s0, 0);
  a += MUL(3199, s1, 0);
  a += MUL(30894, s2, 0);
  a += MUL(-10923, s3, 0);
  r2 = LOW(FLR(a, 15), 16);
  a = 0;
  a += MUL(1, s2, 0);
  r3 = LOW(SAR(a, 0), 16);
  OUT(0, r2);
  s0 = r0;
  s1 = r1;
  s2 = r2;
  s3 = r3;
}
