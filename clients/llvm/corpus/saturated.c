#include <stdint.h>

/* Saturating arithmetic. */

/* run: n=T a=n b=n c=n | loads 2 stores 1 orders 0 */
void add_saturated(const int16_t *restrict a, const int16_t *restrict b, int16_t *restrict c, int n) {
    for (int i = 0; i < n; i++) {
        int s = a[i] + b[i];
        c[i] = (int16_t)(s > 32767 ? 32767 : s < -32768 ? -32768 : s);
    }
}

/* run: n=T a=n b=n c=n | loads 2 stores 1 orders 0 */
void sub_unsigned(const uint8_t *restrict a, const uint8_t *restrict b, uint8_t *restrict c, int n) {
    for (int i = 0; i < n; i++)
        c[i] = (uint8_t)(a[i] > b[i] ? a[i] - b[i] : 0);
}

/* a sum that stays within 32 bits at each step */
/* run: n=T a=n b=n | loads 2 stores 0 orders 0 */
int32_t mac_saturated(const int16_t *a, const int16_t *b, int n) {
    int32_t s = 0;
    for (int i = 0; i < n; i++) {
        int64_t t = (int64_t)s + a[i] * b[i];
        s = (int32_t)(t > INT32_MAX ? INT32_MAX : t < INT32_MIN ? INT32_MIN : t);
    }
    return s;
}

/* a number of 16 bits times one of 16, with rounding */
/* run: n=T k=12345 x=n y=n | loads 1 stores 1 orders 0 */
void gain(const int16_t *restrict x, int16_t *restrict y, int k, int n) {
    for (int i = 0; i < n; i++) {
        int p = (x[i] * k + 16384) >> 15;
        y[i] = (int16_t)(p > 32767 ? 32767 : p < -32768 ? -32768 : p);
    }
}

/* the greatest absolute value of a block */
/* run: n=T x=n | loads 1 stores 0 orders 0 */
int greatest(const int16_t *x, int n) {
    int best = 0;
    for (int i = 0; i < n; i++) {
        int a = x[i] < 0 ? -x[i] : x[i];
        best = a > best ? a : best;
    }
    return best;
}
