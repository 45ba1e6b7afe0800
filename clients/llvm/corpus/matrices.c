#include <stdint.h>

/* Matrices and complex numbers. */

/* run: cols=T rows=3 m=3*T v=T y=3 | loads 2 stores 0 orders 0 */
void rows_times(const int32_t *restrict m, const int32_t *restrict v, int32_t *restrict y, int rows, long cols) {
    for (int r = 0; r < rows; r++) {
        int32_t s = 0;
        for (long c = 0; c < cols; c++)
            s += m[r * cols + c] * v[c];
        y[r] = s;
    }
}

/* a column, whose step is known only when it runs */
/* run: n=T width=7 m=7*T | loads 1 stores 0 orders 0 */
int64_t column(const int32_t *m, long width, int n) {
    int64_t s = 0;
    for (int i = 0; i < n; i++)
        s += m[i * width];
    return s;
}

/* the step of the store is not known, so that one may overlap the next */
/* run: n=T width=3 m=3*T+3 | loads 1 stores 1 orders 2 open 1 */
void scale_column(int32_t *m, long width, int n) {
    for (int i = 0; i < n; i++)
        m[i * width] = m[i * width] * 3 + 1;
}

/* run: n=T a=2*n b=2*n c=2*n | loads 4 stores 2 orders 0 */
void complex_multiply(const int16_t *restrict a, const int16_t *restrict b, int32_t *restrict c, int n) {
    for (int i = 0; i < n; i++) {
        c[2 * i] = a[2 * i] * b[2 * i] - a[2 * i + 1] * b[2 * i + 1];
        c[2 * i + 1] = a[2 * i] * b[2 * i + 1] + a[2 * i + 1] * b[2 * i];
    }
}

/* butterflies of a Fourier transform in place, by a root that stays the same */
/* run: n=T re=2*n im=2*n w=2 | loads 4 stores 4 orders 4 */
void butterflies(float *restrict re, float *restrict im, const float *restrict w, long n) {
    float c = w[0], s = w[1];
    for (long i = 0; i < n; i++) {
        float x = re[2 * i + 1] * c - im[2 * i + 1] * s, y = re[2 * i + 1] * s + im[2 * i + 1] * c, p = re[2 * i], q = im[2 * i];
        re[2 * i] = p + x, im[2 * i] = q + y;
        re[2 * i + 1] = p - x, im[2 * i + 1] = q - y;
    }
}

/* run: n=T x=n y=n a=7 | loads 2 stores 1 orders 1 */
void axpy(const float *restrict x, float *restrict y, float a, int n) {
    for (int i = 0; i < n; i++)
        y[i] += a * x[i];
}

/* run: n=T x=n | loads 1 stores 0 orders 0 */
float sum_of_squares(const float *x, int n) {
    float s = 0;
    for (int i = 0; i < n; i++)
        s += x[i] * x[i];
    return s;
}

/* run: n=T x=n y=n | loads 1 stores 1 orders 0 */
void to_fixed(const float *restrict x, int32_t *restrict y, int n) {
    for (int i = 0; i < n; i++)
        y[i] = (int32_t)(x[i] * 16.0f + 0.5f);
}

/* a polynomial, coefficient by coefficient */
/* run: n=T c=n x=1 | loads 1 stores 0 orders 0 */
double horner(const double *c, double x, int n) {
    double s = 0;
    for (int i = 0; i < n; i++)
        s = s * (x / 4) + c[i];
    return s;
}
