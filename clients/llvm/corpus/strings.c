#include <stdint.h>

/* Strings and searches: where it is not known before how long they take, they are left out. */

/* run: n=T c=3 x=n:small | loads 1 stores 0 orders 0 */
int count_byte(const uint8_t *x, int c, int n) {
    int count = 0;
    for (int i = 0; i < n; i++)
        count += x[i] == c;
    return count;
}

/* run: n=T x=n y=n | loads 1 stores 1 orders 0 */
void upper(const uint8_t *restrict x, uint8_t *restrict y, int n) {
    for (int i = 0; i < n; i++)
        y[i] = x[i] >= 'a' && x[i] <= 'z' ? x[i] - 32 : x[i];
}

/* how often two bytes follow one another */
/* run: n=T x=n+1:small | loads 2 stores 0 orders 0 */
int pairs(const uint8_t *x, int n) {
    int count = 0;
    for (int i = 0; i < n; i++)
        count += x[i] == 3 && x[i + 1] == 4;
    return count;
}

/* left out: its trip count is not known before it starts */
int length(const char *x) {
    int n = 0;
    while (x[n])
        n++;
    return n;
}

/* left out: it is left in the middle of an iteration */
int find(const uint8_t *x, int c, int n) {
    for (int i = 0; i < n; i++)
        if (x[i] == c)
            return i;
    return -1;
}

/* left out: it is left in the middle of an iteration */
int compare(const uint8_t *x, const uint8_t *y, int n) {
    for (int i = 0; i < n; i++)
        if (x[i] != y[i])
            return x[i] - y[i];
    return 0;
}
