/* What a firmware calls: one moment of one filter. An example; fixif claims nothing of it. */
#ifndef FIXIF_STEP_H
#define FIXIF_STEP_H

#include <stdint.h>

/* What a filter keeps between two moments. All zeros is the filter before its first moment. */
struct fixif_state {
    int32_t s[40];     /* the words of the rows, of the moment before */
    unsigned outside;  /* bit J is set once input J was no word of its width: its low bits were taken */
};

/* The counts of the code's input and output words, each 1 to 4. */
extern const int fixif_inputs;
extern const int fixif_outputs;

/* Takes the input words of a moment, and gives its output words. */
void fixif_step(struct fixif_state *state, const int32_t *in, int32_t *out);

#endif
