#include <stdint.h>

/* Delays: values of iterations before, in registers and in memory. */

/* run: n=T x=n y=n | loads 1 stores 1 orders 0 */
void difference(const int32_t *restrict x, int32_t *restrict y, int n) {
    int32_t last = 5;
    for (int i = 0; i < n; i++) {
        y[i] = x[i] - last;
        last = x[i];
    }
}

/* three delays, one after the other */
/* run: n=T x=n y=n | loads 1 stores 1 orders 0 */
int32_t line3(const int32_t *restrict x, int32_t *restrict y, int n) {
    int32_t a = 1, b = 2, c = 3;
    for (int i = 0; i < n; i++) {
        y[i] = c * 3 + a;
        c = b, b = a, a = x[i];
    }
    return b;
}

/* two numbers change places in each iteration */
/* run: n=T y=n | loads 0 stores 1 orders 0 */
int32_t swap(int32_t *y, int n) {
    int32_t a = 17, b = 4;
    for (int i = 0; i < n; i++) {
        y[i] = a * 3 + i;
        int32_t t = a;
        a = b, b = t;
    }
    return a;
}

/* run: n=T a=3 y=n | loads 0 stores 1 orders 0 */
int32_t fibonacci(uint32_t *y, uint32_t a, int n) {
    uint32_t b = 1;
    for (int i = 0; i < n; i++) {
        uint32_t c = a + b;
        a = b, b = c;
        y[i] = c;
    }
    return (int32_t)b;
}

/* what is read was stored two iterations ago */
/* run: n=T y=n+2 | loads 1 stores 1 orders 1 */
void doubling(int32_t *y, int n) {
    for (int i = 0; i < n; i++)
        y[i + 2] = y[i] * 2 + 1;
}

/* an echo in a ring of 8 numbers: where it is read and written is not known to be apart */
/* run: n=T x=n ring=8 y=n | loads 2 stores 2 orders 2 open 2 */
void echo(const int32_t *restrict x, int32_t *restrict ring, int32_t *restrict y, int n) {
    for (int i = 0; i < n; i++) {
        int32_t s = x[i] + (ring[i & 7] >> 1);
        ring[i & 7] = s;
        y[i] = s;
    }
}

/* two values that begin differently are both what x was before */
/* run: n=T x=n y=n z=n | loads 1 stores 2 orders 0 */
void two_before(const int32_t *restrict x, int32_t *restrict y, int32_t *restrict z, int n) {
    int32_t a = 1, b = 2;
    for (int i = 0; i < n; i++) {
        y[i] = a + 3, z[i] = b ^ 5;
        a = x[i], b = x[i];
    }
}
