#include "fixif.h"
STEP(64, 1, 3, 1)
{
  IN(u0, 16);
  a = 0;
  a += MUL(1, s1, 0);
  a += MUL(1, u0, 0);
  r0 = LOW(SAR(a, 0), 9);
  a = 1;
  a += MUL(1, r0, 0);
  r1 = LOW(SAR(a, 1), 8);
  a = 0;
  a += MUL(1, r0, 0);
  r2 = LOW(SAR(a, 0), 16);
  OUT(0, r2);
  s0 = r0;
  s1 = r1;
  s2 = r2;
}
