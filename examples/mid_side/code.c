#include "fixif.h"
STEP(32, 2, 2, 2)
{
  IN(u0, 16);
  IN(u1, 16);
  a = 1;
  a += MUL(1, u0, 0);
  a += MUL(1, u1, 0);
  r0 = LOW(SAR(a, 1), 16);
  a = 1;
  a += MUL(1, u0, 0);
  a += MUL(-1, u1, 0);
  r1 = LOW(SAR(a, 1), 16);
  OUT(0, r0);
  OUT(1, r1);
  s0 = r0;
  s1 = r1;
}
