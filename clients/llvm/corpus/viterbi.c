#include <stdint.h>

/* Decoding and dynamic programming. */

/* the butterflies of one step of a Viterbi decoder */
/* run: n=T m=5 old=2*n fresh=n branch=n from=n | loads 3 stores 2 orders 0 */
void viterbi_step(const int16_t *restrict old, int16_t *restrict fresh, const int16_t *restrict branch, uint8_t *restrict from, int m, int n) {
    for (int i = 0; i < n; i++) {
        int16_t one = (int16_t)(old[2 * i] + branch[i]), two = (int16_t)(old[2 * i + 1] - branch[i]);
        fresh[i] = one > two ? one : two;
        from[i] = one <= two;
    }
}

/* edit distance: a row that stands on the one before and on itself */
/* run: n=T x=n row=n+1 c=65 | loads 2 stores 1 orders 1 */
int edit_row(const uint8_t *restrict x, int32_t *restrict row, int c, int n) {
    int left = row[0] + 1, corner = row[0];
    for (int i = 0; i < n; i++) {
        int up = row[i + 1], best = up < left ? up + 1 : left + 1, change = corner + (x[i] != c);
        corner = up;
        left = best < change ? best : change;
        row[i + 1] = left;
    }
    return left;
}

/* run: n=T x=n | loads 1 stores 0 orders 0 */
int best_sum(const int32_t *x, int n) {
    int best = 0, here = 0;
    for (int i = 0; i < n; i++) {
        here += x[i] >> 8;
        here = here > 0 ? here : 0;
        best = here > best ? here : best;
    }
    return best;
}

/* where the greatest number stands */
/* run: n=T+1 x=n | loads 1 stores 0 orders 0 */
int peak(const int32_t *x, int n) {
    int best = x[0], at = 0;
    for (int i = 1; i < n; i++)
        if (x[i] > best)
            best = x[i], at = i;
    return at;
}
