#include <stdint.h>
#include <stdlib.h>

/* Images and motion. */

/* run: n=T a=n b=n | loads 2 stores 0 orders 0 */
int sad(const uint8_t *a, const uint8_t *b, int n) {
    int sum = 0;
    for (int i = 0; i < n; i++)
        sum += abs(a[i] - b[i]);
    return sum;
}

/* rows of two pictures, each with a width of its own */
/* run: width=T rows=3 p=200 q=300 a=600+T b=900+T | loads 2 stores 0 orders 0 */
int ssd_rows(const uint8_t *a, const uint8_t *b, long p, long q, int width, int rows) {
    int sum = 0;
    for (int y = 0; y < rows; y++)
        for (int x = 0; x < width; x++) {
            int d = a[y * p + x] - b[y * q + x];
            sum += d * d;
        }
    return sum;
}

/* run: n=T a=n b=n c=n | loads 2 stores 1 orders 0 */
void blend(const uint8_t *restrict a, const uint8_t *restrict b, uint8_t *restrict c, int n) {
    for (int i = 0; i < n; i++)
        c[i] = (uint8_t)((a[i] * 77 + b[i] * 179 + 128) >> 8);
}

/* three bytes a pixel */
/* run: n=T rgb=3*n grey=n | loads 3 stores 1 orders 0 */
void grey_of(const uint8_t *restrict rgb, uint8_t *restrict grey, int n) {
    for (int i = 0; i < n; i++)
        grey[i] = (uint8_t)((rgb[3 * i] * 77 + rgb[3 * i + 1] * 150 + rgb[3 * i + 2] * 29) >> 8);
}

/* the threshold makes one of two values */
/* run: n=T limit=100 x=n y=n | loads 1 stores 1 orders 0 */
void threshold(const uint8_t *restrict x, uint8_t *restrict y, int limit, int n) {
    for (int i = 0; i < n; i++)
        y[i] = x[i] > limit ? 255 : 0;
}

/* two rows into one, in place: the second row may overlap the first */
/* run: n=T a=n+4 b=&a+3 | loads 2 stores 1 orders 3 open 2 */
void mean_rows(uint8_t *a, const uint8_t *b, int n) {
    for (int i = 0; i < n; i++)
        a[i] = (uint8_t)((a[i] + b[i] + 1) >> 1);
}

struct pixel { uint8_t r, g, b, a; };

/* run: n=T x=4*n | loads 2 stores 1 orders 1 */
void dim(struct pixel *x, int n) {
    for (int i = 0; i < n; i++)
        x[i].g = (uint8_t)(x[i].g * x[i].a >> 8);
}
