#include "fixif.h"
STEP(32, 1, 1, 1)
{
  IN(u0, 12);
  a = 2048;
  a += MUL(-13517, u0, 0);
  r0 = LOW(SAR(a, 12), 16);
  OUT(0, r0);
  s0 = r0;
}
