#include <stdint.h>

/* Unrolled by hand. */

/* run: n=4*T a=n b=n | loads 8 stores 0 orders 0 */
int32_t dot4(const int16_t *restrict a, const int16_t *restrict b, int n) {
    int32_t s = 0, t = 0, u = 0, v = 0;
    for (int i = 0; i < n; i += 4) {
        s += a[i] * b[i];
        t += a[i + 1] * b[i + 1];
        u += a[i + 2] * b[i + 2];
        v += a[i + 3] * b[i + 3];
    }
    return s + t + u + v;
}

/* run: n=4*T x=n y=n | loads 4 stores 4 orders 0 */
void scale4(const int32_t *restrict x, int32_t *restrict y, int n) {
    for (int i = 0; i < n; i += 4) {
        y[i] = x[i] * 3 >> 1;
        y[i + 1] = x[i + 1] * 3 >> 1;
        y[i + 2] = x[i + 2] * 3 >> 1;
        y[i + 3] = x[i + 3] * 3 >> 1;
    }
}

/* in place, two at a time: four accesses of one array that are all known to be apart but for those of one number */
/* run: n=2*T x=n | loads 2 stores 2 orders 2 */
void negate2(int32_t *x, int n) {
    for (int i = 0; i < n; i += 2) {
        x[i] = -x[i];
        x[i + 1] = -x[i + 1];
    }
}

/* run: n=2*T x=n y=n+2 | loads 2 stores 2 orders 0 */
void pairs_swapped(const int32_t *restrict x, int32_t *restrict y, int n) {
    const int32_t *end = x + n;
    for (; x != end; x += 2, y += 2) {
        y[0] = x[1];
        y[1] = x[0];
    }
}

/* eight taps at once, with coefficients that stay in registers */
/* run: n=T x=n+8 h=8 y=n | loads 8 stores 1 orders 0 */
void fir8(const int16_t *restrict x, const int16_t *restrict h, int16_t *restrict y, int n) {
    int a = h[0], b = h[1], c = h[2], d = h[3], e = h[4], f = h[5], g = h[6], k = h[7];
    for (int i = 0; i < n; i++) {
        const int16_t *p = x + i;
        y[i] = (int16_t)((p[0] * a + p[1] * b + p[2] * c + p[3] * d + p[4] * e + p[5] * f + p[6] * g + p[7] * k) >> 15);
    }
}
