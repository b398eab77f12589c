#include "fixif.h"
STEP(16, 2, 2, 2)
{
  IN(u0, 8);
  IN(u1, 16);
  a = 0;
  a += MUL(1, u0, 0);
  r0 = LOW(SAR(a, 0), 16);
  a = 0;
  a += MUL(1, u1, 0);
  r1 = LOW(SAR(a, 0), 16);
  OUT(0, r1);
  OUT(1, r0);
  s0 = r0;
  s1 = r1;
}
