/* Keeps input words within the bounds for which a code was judged. An example, as the other headers here.
 *
 * What fixif claims ends with the first word beyond its bound: from then on nothing is known until the state is all zeros
 * again. A word that was taken into its bound first is a word within it, so the claim holds of the words that the code gets.
 */
#ifndef FIXIF_CLAMP_H
#define FIXIF_CLAMP_H

#include <stdint.h>

/* Takes each of the words into its bound, a number of at least 0, and answers how many of them were beyond it. */
static inline unsigned fixif_clamp(int32_t *in, const int32_t *bounds, int inputs)
{
    unsigned beyond = 0;
    for (int j = 0; j < inputs; j++) {
        const int32_t word = in[j] > bounds[j] ? bounds[j] : in[j] < -bounds[j] ? -bounds[j] : in[j];
        beyond += word != in[j];
        in[j] = word;
    }
    return beyond;
}

#endif
