/* How items, walks, the tidy form, aliases, claims and answers grow: each call at a size and at twice the size, processor time of the thread, the
   median of rounds that take both in turn, and the ratio. growth [ROUNDS]. oracle/figures builds it; by hand, after bindings/library:
   cc -O2 -Ibindings/c oracle/growth.c target/staticlib/libecchjulmina.a -o target/growth && target/growth */
#define _POSIX_C_SOURCE 200809L
#include "ecchjulmina.h"

#include <stdio.h>
#include <stdlib.h>
#include <string.h>
#include <time.h>

enum { MOST = 101 };

static double now(void) {
    struct timespec t;
    clock_gettime(CLOCK_THREAD_CPUTIME_ID, &t);
    return (double)t.tv_sec * 1e9 + (double)t.tv_nsec;
}

static int by_value(const void *a, const void *b) {
    double x = *(const double *)a, y = *(const double *)b;
    return (x > y) - (x < y);
}

static uint8_t *frame;
static size_t frame_len;
static uint64_t record[ECCH_RECORD_LEN];
static uint8_t *out;
static uint8_t table[ECCH_IDENTIFIERS];
static uint8_t aliases[ECCH_ALIAS_TABLE_LEN];
static uint64_t answer[16];

static void stop(const char *what) {
    fprintf(stderr, "growth: %s\n", what);
    exit(1);
}

static size_t spell(uint8_t *at, size_t n) {
    size_t k = 0;
    while (n >= 128) {
        at[k++] = (uint8_t)(n % 128 + 128);
        n /= 128;
    }
    at[k++] = (uint8_t)n;
    return k;
}

/* A frame with the first byte, `head` bytes, and n times `item`, as a block if `block`. */
static void make(uint8_t first, const char *head, size_t head_len, const char *item, size_t item_len, size_t n, int block) {
    uint8_t len[8];
    size_t body = head_len + n * item_len, k = block ? spell(len, n * item_len) : 0, at = 0, i;
    free(frame);
    free(out);
    frame = malloc(body + 16);
    out = malloc(body + 16);
    frame[at++] = first;
    at += spell(frame + at, body + k);
    memcpy(frame + at, head, head_len);
    at += head_len;
    memcpy(frame + at, len, k);
    at += k;
    for (i = 0; i < n; i++, at += item_len)
        memcpy(frame + at, item, item_len);
    frame_len = at;
    memset(out, 0, body + 16);
    if (ecch_read(frame, frame_len, 0, 0, record, ECCH_RECORD_LEN))
        stop("the frame is refused");
}

static void users(size_t n) { make(0x30, "\0\1t", 3, "\x26\0\1k\0\1v", 7, n, 1); }
static void filters(size_t n) { make(0x82, "\0\1\0", 3, "\0\3a/b\1", 6, n, 0); }

/* A Publish whose properties are out of order: a content type behind the user properties, and one before them. */
static void disorder(size_t n) {
    users(n);
    frame_len = 0;
    {
        char *item = malloc(n * 7 + 8);
        size_t i;
        memcpy(item, "\x03\0\1c", 4);
        for (i = 0; i < n; i++)
            memcpy(item + 4 + i * 7, "\x26\0\1k\0\1v", 7);
        make(0x30, "\0\1t", 3, item, n * 7 + 4, 1, 1);
        free(item);
    }
}

/* every identifier before the n-th waits, by n - 1 claims */
static void waiting(size_t n) {
    size_t i;
    ecch_inflight_start(table, sizeof table);
    for (i = 1; i < n; i++)
        if (ecch_inflight_claim(1, table, sizeof table, answer, 1))
            stop("a claim is refused");
}

static void one_alias(size_t n) {
    uint8_t topic[] = "line3/armour/length/count";
    uint16_t a;
    memset(aliases, 0, sizeof aliases);
    for (a = 1; a <= n; a++)
        if (ecch_alias_learn(topic, sizeof topic - 1, 0, sizeof topic - 1, 1, a, aliases, sizeof aliases))
            stop("an alias is refused");
}

static void last_user(size_t n) {
    if (ecch_user_property(frame, frame_len, 3, record[ECCH_BLOCK_START], record[ECCH_BLOCK_LEN], n - 1, answer, ECCH_USER_LEN))
        stop("no item");
}

static void last_filter(size_t n) {
    if (ecch_filter(frame, frame_len, record[ECCH_FILTERS_START], record[ECCH_FILTERS_LEN], n - 1, answer, ECCH_FILTER_LEN))
        stop("no filter");
}

static void walk_users(size_t n) {
    size_t at = record[ECCH_BLOCK_START], end = at + record[ECCH_BLOCK_LEN], count = 0;
    while (ecch_next_user(frame, frame_len, 3, at, end, answer, ECCH_NEXT_USER_NUMBERS) == 0) {
        at = answer[ECCH_NEXT_USER_NEXT];
        count++;
    }
    if (count != n)
        stop("another count");
}

static void walk_filters(size_t n) {
    size_t at = record[ECCH_FILTERS_START], end = at + record[ECCH_FILTERS_LEN], count = 0;
    while (ecch_next_filter(frame, frame_len, at, end, answer, ECCH_NEXT_FILTER_NUMBERS) == 0) {
        at = answer[ECCH_NEXT_FILTER_NEXT];
        count++;
    }
    if (count != n)
        stop("another count");
}

static void tidy(size_t n) {
    (void)n;
    if (ecch_tidy(frame, frame_len, out, frame_len, answer, 4))
        stop("not tidied");
}

static void look_up(size_t n) {
    if (ecch_topic_in_force(frame, 0, 0, 0, 1, (uint16_t)n, aliases, sizeof aliases, answer, ECCH_FORCE_NUMBERS))
        stop("no topic in force");
}

/* identifier n, and its PubAck: the table is as it was */
static void claim_and_answer(size_t n) {
    if (ecch_inflight_claim(1, table, sizeof table, answer, 1) || ecch_inflight_acked(4, (uint16_t)n, 0, table, sizeof table, answer, 1))
        stop("a claim or an answer is refused");
}

/* ns of `call` at n and 2 n, once `before` has made what it works on */
static void row(const char *what, size_t n, int calls, int rounds, void (*before)(size_t), void (*call)(size_t)) {
    double times[2][MOST];
    int r, side, i;
    for (side = 0; side < 2; side++) {
        size_t size = n << side;
        before(size);
        call(size);
        for (r = 0; r < rounds; r++) {
            double t = now();
            for (i = 0; i < calls >> side; i++)
                call(size);
            times[side][r] = (now() - t) / (calls >> side);
        }
        qsort(times[side], (size_t)rounds, sizeof(double), by_value);
    }
    printf("%s: %.0f ns at %zu, %.0f at %zu, ratio %.2f\n", what, times[0][rounds / 2], n, times[1][rounds / 2], 2 * n, times[1][rounds / 2] / times[0][rounds / 2]);
    fflush(stdout);
}

int main(int argc, char **argv) {
    int rounds = argc > 1 ? atoi(argv[1]) : 21;
    if (rounds < 1 || rounds > MOST)
        return 2;
    row("the last user property of n", 10000, 20, rounds, users, last_user);
    row("the last filter of n", 10000, 20, rounds, filters, last_filter);
    row("a walk over n user properties", 10000, 8, rounds, users, walk_users);
    row("a walk over n filters", 10000, 8, rounds, filters, walk_filters);
    row("the tidy form, n user properties", 10000, 8, rounds, users, tidy);
    row("the tidy form, n user properties behind a content type", 10000, 8, rounds, disorder, tidy);
    row("a topic by its alias, n aliases set", 8, 20000, rounds, one_alias, look_up);
    row("a claim and its PubAck, n - 1 of 1,024 identifiers waiting", 512, 20000, rounds, waiting, claim_and_answer);
    return 0;
}
