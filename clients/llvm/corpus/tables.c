#include <stdint.h>

/* Tables and indices. */

uint8_t SQUARES[16] = {0, 1, 4, 9, 16, 25, 36, 49, 64, 81, 100, 121, 144, 169, 196, 225};
int32_t STATE[256];

/* run: n=T x=n bins=256 | loads 2 stores 1 orders 2 open 2 */
void histogram(const uint8_t *restrict x, int32_t *bins, int n) {
    for (int i = 0; i < n; i++)
        bins[x[i]]++;
}

/* the same where nobody says that the bins are not a part of what is counted */
/* run: n=T x=n bins=256 | loads 2 stores 1 orders 4 open 4 */
void histogram_open(const uint8_t *x, int32_t *bins, int n) {
    for (int i = 0; i < n; i++)
        bins[x[i]]++;
}

/* run: n=T x=n y=n | loads 2 stores 1 orders 0 */
void look_up(const uint8_t *restrict x, uint8_t *restrict y, int n) {
    for (int i = 0; i < n; i++)
        y[i] = SQUARES[x[i] & 15];
}

/* run: n=T x=n at=n:small y=16 | loads 2 stores 1 orders 0 */
void scatter(const int32_t *restrict x, const uint8_t *restrict at, int32_t *restrict y, int n) {
    for (int i = 0; i < n; i++)
        y[at[i]] = x[i];
}

/* run: n=T x=16 at=n:small y=n | loads 2 stores 1 orders 0 */
void gather(const int32_t *restrict x, const uint8_t *restrict at, int32_t *restrict y, int n) {
    for (int i = 0; i < n; i++)
        y[i] = x[at[i]];
}

/* numbers that a list of links leads to */
/* run: n=T next=16:small y=n | loads 1 stores 1 orders 0 */
void follow(const uint8_t *restrict next, uint8_t *restrict y, int n) {
    uint8_t at = 3;
    for (int i = 0; i < n; i++) {
        at = next[at];
        y[i] = at;
    }
}

/* two variables of the file lie apart */
/* run: n=T | loads 2 stores 0 orders 0 */
int32_t squares_by_state(int n) {
    int32_t s = 0;
    for (int i = 0; i < n; i++)
        s += STATE[i & 255] + SQUARES[i & 15];
    return s;
}

/* run: n=T y=n | loads 0 stores 1 orders 0 */
void ramp(int32_t *y, int n) {
    for (int i = 0; i < n; i++)
        y[i] = i * i + 3;
}
