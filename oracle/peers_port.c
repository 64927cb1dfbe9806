/* peers_port FILE ROUNDS: the frames of FILE through ecch_read; ns of processor time a frame (of a Subscribe: a filter). oracle/peers builds it. */
#include <stdio.h>
#include <stdlib.h>
#include <string.h>
#include <time.h>
#include "ecchjulmina.h"

static double now(void)
{
    struct timespec t;
    clock_gettime(CLOCK_THREAD_CPUTIME_ID, &t);
    return (double)t.tv_sec * 1e9 + (double)t.tv_nsec;
}

static int by_value(const void *a, const void *b)
{
    double x = *(const double *)a, y = *(const double *)b;
    return (x > y) - (x < y);
}

int main(int argc, char **argv)
{
    if (argc != 3)
        return 2;
    FILE *f = fopen(argv[1], "rb");
    if (!f)
        return 2;
    fseek(f, 0, SEEK_END);
    size_t len = (size_t)ftell(f);
    rewind(f);
    uint8_t *s = malloc(len);
    if (!s || fread(s, 1, len, f) != len)
        return 2;
    int rounds = atoi(argv[2]), items = 100000;
    double *times = malloc(sizeof *times * (size_t)rounds);
    for (int r = 0; r < rounds; r++) {
        uint64_t record[ECCH_RECORD_LEN];
        size_t at = 0;
        double start = now();
        while (at < len) {
            if (ecch_read(s + at, len - at, 0, 0, record, ECCH_RECORD_LEN))
                return 1;
            at += record[ECCH_TAKEN];
        }
        times[r] = (now() - start) / items;
    }
    qsort(times, (size_t)rounds, sizeof *times, by_value);
    const char *name = strrchr(argv[1], '/');
    printf("ecch_read %s %.1f\n", name ? name + 1 : argv[1], times[rounds / 2]);
    return 0;
}
