/* How far an output of a transfer function can go, enclosed in ball arithmetic: the bound times the sum of the
   magnitudes of the impulse response. Its values are added up block by block, each block by the rows of the powers of
   the companion matrix, and what comes behind is bounded by a power whose norm is below 1/2.
     gain BOUND WIDTH NB B.. A..     A without its leading 1; until the ends lie WIDTH apart or less
   Prints the moments that were added up and the ends. Links with -lflint-arb -lflint. */
#include <arb.h>
#include <arb_mat.h>
#include <stdio.h>
#include <stdlib.h>

static slong prec = 128;

/* whether a row sum of the matrix's magnitudes is at most 1/2, which is an upper bound of its norm */
static int is_small(const arb_mat_t m)
{
    mag_t norm;
    mag_init(norm);
    arb_mat_bound_inf_norm(norm, m);
    int small = mag_cmp_2exp_si(norm, -1) <= 0;
    mag_clear(norm);
    return small;
}

/* the first power of two whose power of the matrix is small; 0 where there is none */
static slong small_power(arb_mat_t power, const arb_mat_t step)
{
    slong length = 1;
    arb_mat_set(power, step);
    while (!is_small(power)) {
        if (length > 1 << 16) return 0;
        arb_mat_sqr(power, power, prec), length *= 2;
    }
    return length;
}

int main(int words, char **word)
{
    if (words < 5) return 2;
    slong nb = atol(word[3]), n = words - 4 - nb, i, k, length, first;
    if (n < 1 || nb < 1) return 2;
    double width = atof(word[2]), growth = 1;
    for (i = 0; i < n; i++) growth += fabs(atof(word[4 + nb + i]));

    arb_mat_t step, power, rows, state, next;
    arb_mat_init(step, n, n), arb_mat_init(power, n, n), arb_mat_init(state, n, 1), arb_mat_init(next, n, 1);
    for (;;) {
        for (i = 0; i < n; i++) {
            arb_set_str(arb_mat_entry(step, 0, i), word[4 + nb + i], prec);
            arb_neg(arb_mat_entry(step, 0, i), arb_mat_entry(step, 0, i));
            if (i + 1 < n) arb_one(arb_mat_entry(step, i + 1, i));
        }
        length = small_power(power, step);
        slong wanted = 128 + length * (slong)ceil(log2(growth));
        if (length == 0 && prec > 1 << 16) return 3;
        if (length > 0 && prec >= wanted) break;
        prec = wanted > 2 * prec ? wanted : 2 * prec;
    }

    arb_t bound, sum, rest, y, size, low, high, gap;
    arb_init(bound), arb_init(sum), arb_init(rest), arb_init(y), arb_init(size);
    arb_init(low), arb_init(high), arb_init(gap);
    arb_set_str(bound, word[1], prec);

    /* row k is the first of power k + 1; twice the sum of all magnitudes bounds what comes behind a state of size 1 */
    arb_mat_init(rows, length, n);
    for (k = 0; k < length; k++)
        for (i = 0; i < n; i++) {
            if (k == 0) {
                arb_set(arb_mat_entry(rows, 0, i), arb_mat_entry(step, 0, i));
            } else {
                arb_mul(arb_mat_entry(rows, k, i), arb_mat_entry(rows, k - 1, 0), arb_mat_entry(step, 0, i), prec);
                if (i + 1 < n)
                    arb_add(arb_mat_entry(rows, k, i), arb_mat_entry(rows, k, i), arb_mat_entry(rows, k - 1, i + 1), prec);
            }
            arb_abs(size, arb_mat_entry(rows, k, i)), arb_addmul_ui(rest, size, 2, prec);
        }

    /* the first values, by the recursion */
    first = n > nb ? n : nb;
    arb_ptr h = _arb_vec_init(first);
    for (k = 0; k < first; k++) {
        if (k < nb) arb_set_str(h + k, word[4 + k], prec);
        for (i = 0; i < n && i < k; i++) arb_addmul(h + k, arb_mat_entry(step, 0, i), h + k - 1 - i, prec);
        arb_abs(size, h + k), arb_add(sum, sum, size, prec);
    }
    for (i = 0; i < n; i++) arb_set(arb_mat_entry(state, i, 0), h + first - 1 - i);

    for (k = first;; k += length) {
        arb_zero(y);
        for (i = 0; i < n; i++) arb_abs(size, arb_mat_entry(state, i, 0)), arb_max(y, y, size, prec);
        arb_addmul(high, y, rest, prec), arb_add(high, sum, high, prec), arb_mul(high, high, bound, prec);
        arb_mul(low, sum, bound, prec);
        arb_sub(gap, high, low, prec);
        arf_t most;
        arf_init(most), arb_get_ubound_arf(most, gap, prec);
        int near = arf_cmp_d(most, width) <= 0;
        arf_clear(most);
        if (near || k > 1 << 20) break;
        for (slong t = 0; t < length; t++) {
            arb_zero(y);
            for (i = 0; i < n; i++) arb_addmul(y, arb_mat_entry(rows, t, i), arb_mat_entry(state, i, 0), prec);
            arb_abs(size, y), arb_add(sum, sum, size, prec);
        }
        arb_mat_mul(next, power, state, prec), arb_mat_swap(state, next);
        arb_zero(high);
    }
    printf("moments %ld power %ld bits %ld low ", (long)k, (long)length, (long)prec);
    arb_printn(low, 30, 0), printf(" high "), arb_printn(high, 30, 0), printf("\n");
    return 0;
}
