// The programs of crates/fx_bench/src/machine.rt as tables, walked term by term: with sums of 64 bits that wrap round,
// and with sums of 128 bits and the marks of each row. Its one word is the count of moments of each program.
#include <stdint.h>
#include <stdio.h>
#include <stdlib.h>
#include <string.h>
#include <time.h>

#define ROWS 40
#define OLD ROWS
#define IN (2 * ROWS)

// a factor, coefficient * 2^left, and the place of the word that it takes
typedef struct {
    int64_t factor;
    int place;
} term;

typedef struct {
    int first, end, shift, width;
} row;

typedef struct {
    const char *name;
    int accumulator, rows, output;
    row row[8];
    term term[16];
} program;

typedef struct {
    uint64_t words, marks;
} sums;

#define SECOND_ORDER                                                                                                    \
    {{0, 5, 20, 20}, {5, 6, 0, 20}, {6, 7, 0, 20}, {7, 8, 0, 20}, {8, 9, 0, 20}, {9, 10, 4, 16}},                       \
        {{21059 * 2, OLD + 1}, {21059, OLD + 2}, {818423 * 2, OLD + 3}, {-336253 * 2, OLD + 4}, {21059 * 16, IN},       \
         {16, IN}, {1, OLD + 1}, {1, 0}, {1, OLD + 3}, {1, 0}}

static const program programs[] = {
    {"second_order_64", 64, 6, 5, SECOND_ORDER},
    {"second_order_32", 32, 6, 5, SECOND_ORDER},
    {"detour_16", 16, 2, 1, {{0, 1, 0, 16}, {1, 3, 0, 16}}, {{1, IN}, {200, IN}, {-199, 0}}},
};

static double nanos(void) {
    struct timespec t;
    clock_gettime(CLOCK_MONOTONIC, &t);
    return 1e9 * (double)t.tv_sec + (double)t.tv_nsec;
}

static inline uint32_t next_seed(uint32_t seed) { return 1664525u * seed + 1013904223u; }

static inline int64_t drawn(uint32_t seed) { return (int64_t)(seed >> 16) % 2001 - 1000; }

static inline int64_t low(int64_t x, int bits) { return (int64_t)((uint64_t)x << (64 - bits)) >> (64 - bits); }

static inline __int128 low_wide(__int128 x, int bits) {
    __int128 top = (__int128)1 << (bits - 1);
    x &= 2 * top - 1;
    return x < top ? x : x - 2 * top;
}

static inline int64_t half(int shift) { return shift == 0 ? 0 : (int64_t)1 << (shift - 1); }

__attribute__((noinline)) static sums run_plain(const program *p, long count) {
    int64_t words[IN + 4] = {0};
    uint32_t seed = 1;
    sums sum = {0, 0};
    for (long k = 0; k < count; k++) {
        seed = next_seed(seed);
        words[IN] = drawn(seed);
        memcpy(words + OLD, words, sizeof(int64_t) * (size_t)p->rows);
        for (int i = 0; i < p->rows; i++) {
            const row *r = &p->row[i];
            uint64_t a = (uint64_t)half(r->shift);
            for (int t = r->first; t < r->end; t++) a += (uint64_t)p->term[t].factor * (uint64_t)words[p->term[t].place];
            words[i] = low(low((int64_t)a, p->accumulator) >> r->shift, r->width);
        }
        sum.words = sum.words * 31 + (uint32_t)words[p->output];
    }
    return sum;
}

__attribute__((noinline)) static sums run_marked(const program *p, long count) {
    int64_t words[IN + 4] = {0};
    uint32_t seed = 1;
    sums sum = {0, 0};
    __int128 top = (__int128)1 << (p->accumulator - 1);
    for (long k = 0; k < count; k++) {
        uint64_t partial = 0, lost = 0;
        seed = next_seed(seed);
        words[IN] = drawn(seed);
        memcpy(words + OLD, words, sizeof(int64_t) * (size_t)p->rows);
        for (int i = 0; i < p->rows; i++) {
            const row *r = &p->row[i];
            __int128 a = half(r->shift);
            int outside = a >= top;
            for (int t = r->first; t < r->end; t++) {
                a += (__int128)p->term[t].factor * words[p->term[t].place];
                outside |= a >= top || a < -top;
            }
            __int128 kept = low_wide(a, p->accumulator);
            __int128 shifted = kept >> r->shift;
            __int128 word = low_wide(shifted, r->width);
            partial |= (uint64_t)outside << i;
            lost |= (uint64_t)(kept != a || word != shifted) << i;
            words[i] = (int64_t)word;
        }
        sum.words = sum.words * 31 + (uint32_t)words[p->output];
        sum.marks = (sum.marks * 31 + partial) * 31 + lost;
    }
    return sum;
}

static void time_steps(const char *kind, const program *p, long count, sums (*run)(const program *, long)) {
    double start = nanos();
    sums sum = run(p, count);
    double time = nanos() - start;
    printf("%s %s %.1f words %llu marks %llu\n", kind, p->name, time / (double)count, (unsigned long long)sum.words, (unsigned long long)sum.marks);
}

int main(int argc, char **argv) {
    long count = argc > 1 ? atol(argv[1]) : 1;
    if (count < 1) return 2;
    for (size_t i = 0; i < sizeof programs / sizeof *programs; i++) {
        time_steps("plain", &programs[i], count, run_plain);
        time_steps("marked", &programs[i], count, run_marked);
    }
}
