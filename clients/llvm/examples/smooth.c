#include <stdint.h>

/* A filter of one pole: each output stands on the one before. */
void smooth(const int16_t *restrict x, int32_t *restrict y, int n) {
    int32_t s = 0;
    for (int i = 0; i < n; i++) {
        s += (x[i] - s) >> 3;
        y[i] = s;
    }
}

int length(const char *text) {
    int n = 0;
    while (text[n])
        n++;
    return n;
}
