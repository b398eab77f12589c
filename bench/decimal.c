// What the C library takes for the numerals and values of crates/fx_bench/src/decimal.rt: strtod, and snprintf with
// nine places. Its one word is the count of rounds over each table.
#include <math.h>
#include <stdio.h>
#include <stdlib.h>
#include <time.h>

#define COUNT 16

static const char *const numerals[COUNT] = {
    "43.1199938475118251",
    "0.713795613417638553",
    "-2.51717085982806726",
    "7.74493722189696471e-05",
    "13.1786298621682195",
    "-0.246373012129263483",
    "4.17381135784997167",
    "6.37522489601798705e-06",
    "-50251.1292304451456",
    "0.551461091957695602",
    "2.01210686479226118",
    "-8.57424720401370382e-05",
    "32375.1567201966004",
    "0.404571808230201604",
    "-9.32940317685534464",
    "3.27926482113117774e-04",
};

// at the scale 2^-64
static const char *const values[COUNT] = {
    "33438069963599974040",
    "9420949073812859793",
    "558349600677820931935",
    "79703928596904520603142",
    "-35015727559694727649",
    "8039282468254526301",
    "916914445270302606604",
    "105514583726163146169774",
    "51111791266898155352",
    "-7249315215258992532",
    "766695817862920423274",
    "153808584540851404226458",
    "21031821863769723110",
    "11402476280795475337",
    "-793172204047378392321",
    "221197651551128171910962",
};

static double nanos(void) {
    struct timespec t;
    clock_gettime(CLOCK_MONOTONIC, &t);
    return 1e9 * (double)t.tv_sec + (double)t.tv_nsec;
}

int main(int argc, char **argv) {
    long rounds = argc > 1 ? atol(argv[1]) : 1;
    if (rounds < 1) return 2;
    double sum = 0;
    double start = nanos();
    for (long round = 0; round < rounds; round++)
        for (int i = 0; i < COUNT; i++) sum += strtod(numerals[i], 0);
    double time = nanos() - start;
    printf("strtod 18 digits %.1f checksum %.17g\n", time / (double)(rounds * COUNT), sum);

    double scaled[COUNT];
    for (int i = 0; i < COUNT; i++) scaled[i] = ldexp(strtod(values[i], 0), -64);
    long bytes = 0;
    start = nanos();
    for (long round = 0; round < rounds; round++)
        for (int i = 0; i < COUNT; i++) {
            char text[64];
            int len = snprintf(text, sizeof text, "%.9f", scaled[i]);
            for (int k = 0; k < len; k++) bytes += (unsigned char)text[k];
        }
    time = nanos() - start;
    printf("snprintf 9 places %.1f checksum %ld\n", time / (double)(rounds * COUNT), bytes);
}
