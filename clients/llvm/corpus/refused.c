#include <stdint.h>

/* Loops that give no problem, each with its reason. */

int helper(int x);

/* left out: it calls helper */
int calls(const int *x, int n) {
    int s = 0;
    for (int i = 0; i < n; i++)
        s += helper(x[i]);
    return s;
}

/* left out: it has a volatile or atomic access */
void device(volatile int *port, const int *x, int n) {
    for (int i = 0; i < n; i++)
        *port = x[i];
}

/* left out: an iteration has 4 blocks */
void either(const int32_t *restrict x, int32_t *restrict y, int16_t *restrict z, int n) {
    for (int i = 0; i < n; i++) {
        if (x[i] > 0)
            y[i] = x[i];
        else
            z[i] = 7;
    }
}

/* left out: its trip count is not known before it starts */
int collatz(uint64_t x) {
    int steps = 0;
    do {
        x = x & 1 ? 3 * x + 1 : x >> 1;
        steps++;
    } while (x > 1);
    return steps;
}

/* left out: the machine has nothing for sdiv of i32 */
void divide(const int32_t *restrict x, int32_t *restrict y, int k, int n) {
    for (int i = 0; i < n; i++)
        y[i] = x[i] / k;
}

/* left out: it never ends */
void forever(int32_t *x) {
    for (uint32_t i = 0;; i++)
        x[i & 7] = (int32_t)i;
}

/* left out: it reads a value of 18 iterations ago */
int32_t long_line(const int32_t *restrict x, int n) {
    int32_t a = 0, b = 0, c = 0, d = 0, e = 0, f = 0, g = 0, h = 0, i = 0, j = 0, k = 0, l = 0, m = 0, o = 0, p = 0, q = 0, r = 0, s = 0, sum = 0;
    for (int at = 0; at < n; at++) {
        sum += s * 3;
        s = r, r = q, q = p, p = o, o = m, m = l, l = k, k = j, j = i, i = h, h = g, g = f, f = e, e = d, d = c, c = b, b = a, a = x[at];
    }
    return sum;
}
