/* CRC-32 of 508 bytes, the port's beside zlib's: ns a call, processor time of the thread, the median of rounds that take both in turn; the last number
   is zlib's time over the port's. Links libcrc32.a of oracle/sources and zlib (Debian: zlib1g-dev). oracle/figures builds it. */
#define _POSIX_C_SOURCE 200809L
#include <stdint.h>
#include <stdio.h>
#include <stdlib.h>
#include <time.h>
#include <zlib.h>

uint32_t port_crc32(const uint8_t *s, size_t len);
enum { CALLS = 20000, ROUNDS = 21, BYTES = 508 };

static double now(void) {
    struct timespec t;
    clock_gettime(CLOCK_THREAD_CPUTIME_ID, &t);
    return (double)t.tv_sec * 1e9 + (double)t.tv_nsec;
}

static int by_value(const void *a, const void *b) {
    double x = *(const double *)a, y = *(const double *)b;
    return (x > y) - (x < y);
}

int main(void) {
    static uint8_t s[BYTES];
    double times[2][ROUNDS];
    uint32_t sums[2] = {0, 0};
    int r, i;
    for (i = 0; i < BYTES; i++)
        s[i] = (uint8_t)(i * 151 + 7);
    for (r = 0; r < ROUNDS; r++) {
        double t = now();
        for (i = 0; i < CALLS; i++) {
            s[0] = (uint8_t)i;
            sums[0] ^= port_crc32(s, BYTES);
        }
        times[0][r] = (now() - t) / CALLS;
        t = now();
        for (i = 0; i < CALLS; i++) {
            s[0] = (uint8_t)i;
            sums[1] ^= (uint32_t)crc32(0, s, BYTES);
        }
        times[1][r] = (now() - t) / CALLS;
    }
    if (sums[0] != sums[1])
        return 1;
    qsort(times[0], ROUNDS, sizeof(double), by_value);
    qsort(times[1], ROUNDS, sizeof(double), by_value);
    printf("CRC-32 of 508 bytes: port %.0f ns, zlib %.0f ns, zlib / port %.2f\n", times[0][ROUNDS / 2], times[1][ROUNDS / 2], times[1][ROUNDS / 2] / times[0][ROUNDS / 2]);
    return 0;
}
