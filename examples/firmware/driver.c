/* Runs the code on samples: reads them as `fixif simulate` does, and puts its outputs in the same way.
 *
 *     driver SAMPLES
 *
 * The status is 6 with the line of the first fault where the samples are refused, 8 where they cannot be read, 2 where
 * there is no file name. Fields in quotes, a byte order mark and lines ended by a carriage return alone are not read.
 *
 * With -DFIXIF_CLAMP each word is first taken into its bound, as a firmware does with what its converter gives, and how
 * many words were beyond it is said on standard error. The Makefile writes the bounds of the filter file into
 * fixif_bounds.h.
 */
#define _POSIX_C_SOURCE 200809L
#include <stdbool.h>
#include <stdio.h>
#include <stdlib.h>
#include <string.h>

#include "fixif_step.h"

enum { PORTS = 4, FIELD_DIGITS = 18 };

/* How many input words were beyond their bounds. */
static unsigned long beyond;

#ifdef FIXIF_CLAMP
#include "fixif_bounds.h"
#include "fixif_clamp.h"

static void clamp(int32_t in[PORTS])
{
    static const int32_t bounds[PORTS] = FIXIF_BOUNDS;
    beyond += fixif_clamp(in, bounds, fixif_inputs);
}
#else
static void clamp(int32_t in[PORTS])
{
    (void)in;
}
#endif

/* The number of a field: blanks, perhaps a sign, digits, blanks. */
static bool read_field(const char *field, long long *number)
{
    field += strspn(field, " \t");
    const size_t sign = *field == '-' || *field == '+';
    const size_t digits = strspn(field + sign, "0123456789");
    const char *rest = field + sign + digits;
    if (digits < 1 || digits > FIELD_DIGITS || rest[strspn(rest, " \t")] != '\0') return false;
    *number = strtoll(field, NULL, 10);
    return true;
}

/* Cuts a line at its commas and counts its fields; the first few are kept. */
static int split(char *line, char *fields[PORTS])
{
    int count = 0;
    for (char *next; line != NULL; line = next) {
        next = strchr(line, ',');
        if (next != NULL) *next++ = '\0';
        if (count < PORTS) fields[count] = line;
        count++;
    }
    return count;
}

/* One moment. Answers false, and has said why, where its record is refused. */
static bool step(struct fixif_state *state, char *line, long record, int32_t out[PORTS])
{
    char *fields[PORTS];
    long long numbers[PORTS];
    bool fits[PORTS];
    int32_t in[PORTS] = {0};
    const int count = split(line, fields);
    int good = 0;
    if (count != fixif_inputs) return printf("bad samples columns %ld %d %d\n", record, count, fixif_inputs), false;
    for (; good < count && read_field(fields[good], &numbers[good]); good++) {
        fits[good] = INT32_MIN <= numbers[good] && numbers[good] <= INT32_MAX;
        if (fits[good]) in[good] = (int32_t)numbers[good];
    }
    clamp(in);
    fixif_step(state, in, out);
    for (int j = 0; j < good; j++) {
        const bool word = fits[j] && (state->outside >> j & 1) == 0;
        if (!word) return printf("bad samples out of word %ld %d %lld\n", record, j + 1, numbers[j]), false;
    }
    if (good < count) return printf("bad samples field %ld %d\n", record, good + 1), false;
    return true;
}

/* All moments of a file, with the outputs put or not. Answers whether each record is good. */
static bool run(FILE *samples, bool put)
{
    struct fixif_state state = {0};
    int32_t out[PORTS];
    char *line = NULL;
    size_t room = 0;
    bool good = true;
    beyond = 0;
    rewind(samples);
    for (long record = 1; good && getline(&line, &room, samples) > 0;) {
        line[strcspn(line, "\r\n")] = '\0';
        if (*line == '\0') continue;
        good = step(&state, line, record++, out);
        for (int j = 0; good && put && j < fixif_outputs; j++) {
            printf("%ld%c", (long)out[j], j + 1 < fixif_outputs ? ',' : '\n');
        }
    }
    free(line);
    return good;
}

int main(int count, char **words)
{
    FILE *samples = count == 2 ? fopen(words[1], "rb") : NULL;
    if (samples == NULL) return count == 2 ? 8 : 2;
    /* The first run reads alone: where a record is refused no output is put. */
    const bool good = run(samples, false) && run(samples, true);
    const bool read = !ferror(samples);
    fclose(samples);
    if (beyond > 0) fprintf(stderr, "driver: %lu input words were beyond their bounds\n", beyond);
    return !read ? 8 : good ? 0 : 6;
}
