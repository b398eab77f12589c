#include "fixif.h"
STEP(32, 1, 1, 1)
{
  IN(u0, 16);
  a = 4096;
  a += MUL(819, u0, 0);
  r0 = LOW(SAR(a, 13), 16);
  OUT(0, r0);
  s0 = r0;
}
