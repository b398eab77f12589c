#include "fixif.h"
STEP(32, 1, 5, 1)
{
  IN(u0, 16);
  a = 0;
  a += MUL(1, u0, 0);
  r0 = LOW(SAR(a, 0), 16);
  a = 0;
  a += MUL(1, s0, 0);
  r1 = LOW(SAR(a, 0), 16);
  a = 8388608;
  a += MUL(65702, u0, 6);
  a += MUL(131403, s0, 6);
  a += MUL(65702, s1, 6);
  a += MUL(30456369, s2, 0);
  a += MUL(-13941960, s3, 0);
  r2 = LOW(SAR(a, 24), 22);
  a = 0;
  a += MUL(1, s2, 0);
  r3 = LOW(SAR(a, 0), 22);
  a = 32;
  a += MUL(1, r2, 0);
  r4 = LOW(SAR(a, 6), 16);
  OUT(0, r4);
  s0 = r0;
  s1 = r1;
  s2 = r2;
  s3 = r3;
  s4 = r4;
}
