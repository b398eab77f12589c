/* The code of examples/low_pass as a C programmer writes it, for Frama-C's analysis of values: any input within the
 * bound, any number of moments. Asked are whether the sum of row 2 stays in its 64 bits, and its word in 22 bits. */
#include <stdint.h>
#include "__fc_builtin.h"

int main(void)
{
    int64_t u1 = 0, u2 = 0, s2 = 0, s3 = 0;
    while (1) {
        const int64_t u = Frama_C_interval(-16384, 16384);
        const int64_t sum = 8388608 + 64 * (65702 * u + 131403 * u1 + 65702 * u2) + 30456369 * s2 - 13941960 * s3;
        const int64_t word = sum >> 24;
        //@ assert row_2_is_a_word: -2097152 <= word <= 2097151;
        s3 = s2;
        s2 = word;
        u2 = u1;
        u1 = u;
    }
}
