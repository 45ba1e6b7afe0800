#include <stddef.h>
#include <stdint.h>

/* Checksums and codes. */

/* run: n=T crc=12345 table=256 x=n | loads 2 stores 0 orders 0 */
uint32_t crc32_table(const uint8_t *x, const uint32_t *table, uint32_t crc, int n) {
    for (int i = 0; i < n; i++)
        crc = table[(crc ^ x[i]) & 255] ^ (crc >> 8);
    return crc;
}

/* run: crc=T n=T | loads 0 stores 0 orders 0 */
uint32_t crc32_bits(uint32_t crc, int n) {
    for (int i = 0; i < n; i++)
        crc = crc & 1 ? (crc >> 1) ^ 0xedb88320u : crc >> 1;
    return crc;
}

/* run: n=T x=n | loads 1 stores 0 orders 0 */
uint32_t adler_sums(const uint8_t *x, int n) {
    uint32_t a = 1, b = 0;
    for (int i = 0; i < n; i++) {
        a += x[i];
        b += a;
    }
    return b << 16 ^ a;
}

/* run: n=T x=n | loads 1 stores 0 orders 0 */
uint32_t fnv(const uint8_t *x, int n) {
    uint32_t h = 2166136261u;
    for (int i = 0; i < n; i++)
        h = (h ^ x[i]) * 16777619u;
    return h;
}

/* run: n=T x=n y=n | loads 2 stores 0 orders 0 */
int hamming(const uint64_t *x, const uint64_t *y, int n) {
    int count = 0;
    for (int i = 0; i < n; i++)
        count += __builtin_popcountll(x[i] ^ y[i]);
    return count;
}

/* run: n=T seed=77 y=n | loads 0 stores 1 orders 0 */
uint32_t noise(uint32_t *y, uint32_t seed, int n) {
    for (int i = 0; i < n; i++) {
        seed ^= seed << 13;
        seed ^= seed >> 17;
        seed ^= seed << 5;
        y[i] = seed;
    }
    return seed;
}

/* run: n=T x=n y=n key=4 | loads 1 stores 1 orders 0 */
void rotate_xor(const uint32_t *restrict x, uint32_t *restrict y, const uint32_t *key, int n) {
    uint32_t k = key[0];
    for (int i = 0; i < n; i++)
        y[i] = (x[i] << 7 | x[i] >> 25) ^ k;
}

/* run: n=T x=n y=n | loads 1 stores 1 orders 0 */
void swap_bytes(const uint32_t *restrict x, uint32_t *restrict y, int n) {
    for (int i = 0; i < n; i++)
        y[i] = __builtin_bswap32(x[i]);
}

/* one step of a cipher: a round depends on the one before */
/* run: n=T v=2 key=4 | loads 2 stores 0 orders 0 */
uint64_t tea(const uint32_t *restrict v, const uint32_t *restrict key, int n) {
    uint32_t a = v[0], b = v[1], sum = 0;
    for (int i = 0; i < n; i++) {
        sum += 0x9e3779b9u;
        a += (b << 4 ^ b >> 5) + b ^ sum + key[sum & 3];
        b += (a << 4 ^ a >> 5) + a ^ sum + key[sum >> 11 & 3];
    }
    return (uint64_t)a << 32 | b;
}

/* run: n=T x=n y=n | loads 1 stores 1 orders 0 */
void gray(const uint16_t *restrict x, uint16_t *restrict y, int n) {
    for (int i = 0; i < n; i++)
        y[i] = x[i] ^ x[i] >> 1;
}
