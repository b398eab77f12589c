#include "fixif.h"
STEP(64, 1, 1, 1)
{
  IN(u0, 8);
  a = 0;
  a += MUL(2, s0, 0);
  a += MUL(1, u0, 0);
  r0 = LOW(SAR(a, 0), 16);
  OUT(0, r0);
  s0 = r0;
}
