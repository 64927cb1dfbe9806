/* Times of a claim and of an answer apart, on a table of lent bytes: processor time of the thread, ns a call, the least and the most of five rounds.
   After bindings/library:
   cc -O2 -Ibindings/c oracle/inflight_times.c target/staticlib/libecchjulmina.a -o target/inflight_times && target/inflight_times */
#define _POSIX_C_SOURCE 200809L
#include "ecchjulmina.h"

#include <stdio.h>
#include <stdlib.h>
#include <string.h>
#include <time.h>

enum { CALLS = 1000000, ROUNDS = 5 };
static uint8_t table[ECCH_IDENTIFIERS];
static uint64_t answer[1];

static double now(void) {
    struct timespec t;
    clock_gettime(CLOCK_THREAD_CPUTIME_ID, &t);
    return (double)t.tv_sec * 1e9 + (double)t.tv_nsec;
}

/* A call that says `number`; before each the byte of identifier `id` is stored, so that every call meets the same table. */
static void times(const char *what, int claim, unsigned id, uint8_t byte, uint8_t others, uint32_t number) {
    double least = 1e18, most = 0;
    int round;
    memset(table, others, sizeof table);
    for (round = 0; round <= ROUNDS; round++) {
        double t = now();
        long i;
        for (i = 0; i < CALLS; i++) {
            uint32_t said;
            table[id - 1] = byte;
            said = claim ? ecch_inflight_claim(1, table, sizeof table, answer, 1) : ecch_inflight_acked(ECCH_PUBACK, (uint16_t)id, 0, table, sizeof table, answer, 1);
            if (said != number) exit(1);
        }
        t = (now() - t) / CALLS;
        /* the first round warms up */
        if (round == 0) continue;
        if (t < least) least = t;
        if (t > most) most = t;
    }
    printf("%-60s %6.1f to %6.1f\n", what, least, most);
}

int main(void) {
    times("a claim, none waiting", 1, 1, 0, 0, ECCH_OK);
    times("a claim, 1,023 waiting, the last identifier free", 1, ECCH_IDENTIFIERS, 0, 1, ECCH_OK);
    times("a claim that is refused (29), 1,024 waiting", 1, 1, 1, 1, ECCH_IN_FLIGHT_FULL);
    times("a PubAck, its identifier alone waiting", 0, 1, 1, 0, ECCH_OK);
    times("a PubAck, 1,024 waiting, the first identifier", 0, 1, 1, 1, ECCH_OK);
    times("a PubAck, 1,024 waiting, the last identifier", 0, ECCH_IDENTIFIERS, 1, 1, ECCH_OK);
    times("a PubAck that is refused (31), none waiting", 0, 1, 0, 0, ECCH_NOT_WAITING);
    return 0;
}
