#include <stdint.h>

/* Filters. */

/* run: n=T x=2*n h=8 y=n | loads 3 stores 1 orders 0 */
void fir3(const int16_t *restrict x, const int16_t *restrict h, int32_t *restrict y, int n) {
    int32_t a = h[0], b = h[1], c = h[2];
    for (int i = 0; i < n; i++)
        y[i] = x[2 * i] * a + x[2 * i + 1] * b + x[i] * c;
}

/* the inner loop of a filter: one output at a time */
/* run: taps=T n=5 x=T+5 h=T y=5 | loads 2 stores 0 orders 0 */
void fir_taps(const int16_t *restrict x, const int16_t *restrict h, int32_t *restrict y, int n, int taps) {
    for (int i = 0; i < n; i++) {
        int32_t s = 0;
        for (int k = 0; k < taps; k++)
            s += h[k] * x[i + k];
        y[i] = s >> 15;
    }
}

/* one pole: the output goes into the next one */
/* run: n=T x=n y=n | loads 1 stores 1 orders 0 */
void one_pole(const int32_t *restrict x, int32_t *restrict y, int n) {
    int32_t s = 0;
    for (int i = 0; i < n; i++) {
        s += (x[i] - s) >> 3;
        y[i] = s;
    }
}

/* direct form one of a biquad, with four numbers that are kept */
/* run: n=T x=n c=5 y=n | loads 1 stores 1 orders 0 */
void biquad(const int32_t *restrict x, const int32_t *restrict c, int32_t *restrict y, int n) {
    int32_t x1 = 1, x2 = 2, y1 = 3, y2 = 4, b0 = c[0], b1 = c[1], b2 = c[2], a1 = c[3], a2 = c[4];
    for (int i = 0; i < n; i++) {
        int32_t now = (b0 * x[i] + b1 * x1 + b2 * x2 - a1 * y1 - a2 * y2) >> 14;
        x2 = x1, x1 = x[i], y2 = y1, y1 = now;
        y[i] = now;
    }
}

/* y[i] stands on y[i - 4], which the fourth iteration before has stored */
/* run: n=T y=n+4 x=n | loads 2 stores 1 orders 1 */
void comb(int32_t *restrict y, const int32_t *restrict x, int n) {
    for (int i = 0; i < n; i++)
        y[i + 4] = (y[i] >> 1) + x[i];
}

/* coefficients go on by the error, in place */
/* run: n=T w=n x=n e=1 | loads 2 stores 1 orders 1 */
void lms(int16_t *w, const int16_t *restrict x, const int16_t *e, int n) {
    int32_t by = e[0];
    for (int i = 0; i < n; i++)
        w[i] = (int16_t)(w[i] + ((x[i] * by) >> 15));
}

/* run: n=T x=2*n y=n | loads 2 stores 1 orders 0 */
void halve(const int16_t *restrict x, int16_t *restrict y, int n) {
    for (int i = 0; i < n; i++)
        y[i] = (int16_t)((x[2 * i] + x[2 * i + 1]) >> 1);
}

/* from the end to the beginning */
/* run: n=T x=n y=n | loads 1 stores 1 orders 0 */
void reversed(const int32_t *restrict x, int32_t *restrict y, int n) {
    for (int i = n - 1; i >= 0; i--)
        y[i] = x[i] * 5;
}
