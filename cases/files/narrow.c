#include "fixif.h"
STEP(32, 1, 1, 1)
{
  IN(u0, 16);
  a = 0;
  a += MUL(1, u0, 0);
  r0 = LOW(SAR(a, 0), 8);
  OUT(0, r0);
  s0 = r0;
}
