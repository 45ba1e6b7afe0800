#include <stdint.h>

/* Pointers that may point to the same: their accesses keep their order. */

/* run: n=T x=n+3 y=&x+1 | loads 1 stores 1 orders 2 open 2 */
void shift_up(int32_t *y, const int32_t *x, int n) {
    for (int i = 0; i < n; i++)
        y[i] = x[i] + 1;
}

/* run: n=T x=n+3 y=&x+2 z=&x+0 | loads 2 stores 1 orders 4 open 4 */
void add_open(int32_t *z, const int32_t *x, const int32_t *y, int n) {
    for (int i = 0; i < n; i++)
        z[i] = x[i] + y[i];
}

/* two bytes of each number, which overlap it */
/* run: n=T x=4*n+8 y=&x+1 | loads 1 stores 1 orders 2 open 2 */
void bytes_of(uint8_t *x, const uint32_t *y, int n) {
    for (int i = 0; i < n; i++)
        x[4 * i] = (uint8_t)(y[i] >> 5);
}

/* one store twice as far as the other: they meet, but when is not worked out */
/* run: n=T x=2*n+2 | loads 1 stores 1 orders 2 open 2 */
void spread(int32_t *x, long n) {
    for (long i = 0; i < n; i++)
        x[2 * i + 1] = x[i] + 1;
}

/* a sum that is kept in memory: it is stored in each iteration, but no longer loaded */
/* run: n=T x=n s=1 | loads 1 stores 1 orders 2 open 2 */
void sum_in_memory(const int32_t *x, int32_t *s, int n) {
    for (int i = 0; i < n; i++)
        *s += x[i];
}

/* the last of several stores to one place stays */
/* run: n=T x=n y=n+1 | loads 1 stores 2 orders 1 */
void twice(const int32_t *restrict x, int32_t *restrict y, int n) {
    for (int i = 0; i < n; i++) {
        y[i + 1] = x[i];
        y[i] = x[i] * 5;
    }
}
