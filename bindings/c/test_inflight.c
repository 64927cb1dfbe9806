/* P4 from C: claims and answers, each refusal, bytes that are no table at each place, and a million random calls held against a model of 02's words. */
#include "ecchjulmina.h"

#include <stdio.h>
#include <stdlib.h>
#include <string.h>

static unsigned long failed, tried;

static void expect(int right, const char *what, int line) {
    tried++;
    if (!right && failed++ < 20) printf("test_inflight.c:%d: %s\n", line, what);
}
#define EXPECT(x) expect(x, #x, __LINE__)

static uint8_t table[ECCH_IDENTIFIERS];
static uint64_t answer[1];

static uint32_t claim(unsigned qos) { return ecch_inflight_claim((uint8_t)qos, table, sizeof table, answer, 1); }
static uint32_t acked(unsigned kind, unsigned id, unsigned reason) {
    return ecch_inflight_acked((uint8_t)kind, (uint16_t)id, (uint8_t)reason, table, sizeof table, answer, 1);
}

static uint64_t waiting(void) {
    uint64_t n[2] = {77, 78};
    EXPECT(ecch_inflight_waiting(table, sizeof table, n, 2) == 0 && n[1] == 78);
    return n[0];
}

/* Each byte that is no state, at each place: every call but a start says 39, stores 0 and leaves the bytes as they were. */
static void no_table(void) {
    static const uint8_t odd[] = {4, 5, 7, 8, 16, 32, 64, 127, 128, 131, 252, 255};
    uint8_t kept[ECCH_IDENTIFIERS + 1];
    unsigned i, k;
    for (i = 0; i < ECCH_IDENTIFIERS; i++) table[i] = (uint8_t)(i % 7 % 4);
    for (i = 0; i < ECCH_IDENTIFIERS; i++) {
        for (k = 0; k < sizeof odd; k++) {
            const uint8_t was = table[i];
            uint64_t n[1] = {77};
            table[i] = odd[k];
            memcpy(kept, table, sizeof table);
            EXPECT(claim(k % 3) == ECCH_BAD_TABLE && answer[0] == 0);
            EXPECT(acked(ECCH_PUBACK + k % 4, i + 1, 0) == ECCH_BAD_TABLE && answer[0] == 0);
            EXPECT(ecch_inflight_waiting(table, sizeof table, n, 1) == ECCH_BAD_TABLE && n[0] == 0);
            EXPECT(!memcmp(kept, table, sizeof table));
            table[i] = was;
        }
    }
    memcpy(kept, table, sizeof table);
    kept[ECCH_IDENTIFIERS] = 0;
    for (i = 0; i <= ECCH_IDENTIFIERS + 1; i += i < 40 ? 1 : 41) {
        const uint32_t want = i == ECCH_IDENTIFIERS ? 0 : ECCH_BAD_TABLE;
        uint64_t n[1] = {77};
        EXPECT(ecch_inflight_waiting(kept, i, n, 1) == want && (want == 0 || n[0] == 0));
        EXPECT(ecch_inflight_acked(ECCH_PUBACK, 0, 0, kept, i, n, 1) == (want ? want : ECCH_NOT_WAITING));
    }
}

static void by_hand(void) {
    uint8_t small[ECCH_IDENTIFIERS + 1];
    unsigned i;
    memset(table, 9, sizeof table);
    EXPECT(claim(1) == ECCH_BAD_TABLE && table[0] == 9);
    EXPECT(ecch_inflight_start(table, sizeof table - 1) == ECCH_BAD_TABLE && table[0] == 9);
    EXPECT(ecch_inflight_start(table, sizeof table) == 0);
    for (i = 0; i < ECCH_IDENTIFIERS; i++) EXPECT(table[i] == 0);
    EXPECT(claim(0) == ECCH_NO_CLAIM);
    answer[0] = 77;
    EXPECT(claim(3) == ECCH_INVALID_QOS && answer[0] == 0);
    EXPECT(claim(1) == 0 && answer[0] == 1 && table[0] == 1);
    EXPECT(claim(2) == 0 && answer[0] == 2 && table[1] == 2);
    EXPECT(claim(1) == 0 && answer[0] == 3);
    EXPECT(waiting() == 3);
    /* answers in another order than the messages */
    EXPECT(acked(ECCH_PUBACK, 3, 0) == 0 && answer[0] == 0 && table[2] == 0);
    EXPECT(acked(ECCH_PUBACK, 2, 0) == ECCH_NOT_WAITING);
    EXPECT(acked(ECCH_PUBCOMP, 2, 0) == ECCH_NOT_WAITING);
    EXPECT(acked(ECCH_PUBREC, 2, 0x7F) == 0 && answer[0] == 3 && table[1] == 3);
    EXPECT(acked(ECCH_PUBREC, 2, 0) == ECCH_NOT_WAITING);
    EXPECT(acked(ECCH_PUBREL, 2, 0) == ECCH_NOT_WAITING);
    EXPECT(acked(ECCH_PUBCOMP, 2, 0x92) == 0 && answer[0] == 0);
    EXPECT(claim(2) == 0 && answer[0] == 2);
    EXPECT(acked(ECCH_PUBREC, 2, 0x80) == 0 && answer[0] == 0 && table[1] == 0);
    EXPECT(acked(ECCH_PUBACK, 0, 0) == ECCH_NOT_WAITING);
    EXPECT(acked(ECCH_PUBACK, ECCH_IDENTIFIERS + 1, 0) == ECCH_NOT_WAITING);
    EXPECT(acked(ECCH_PUBACK, 65535, 0) == ECCH_NOT_WAITING);
    for (i = 2; i <= ECCH_IDENTIFIERS; i++) EXPECT(claim(1 + i % 2) == 0 && answer[0] == i);
    EXPECT(claim(1) == ECCH_IN_FLIGHT_FULL && claim(2) == ECCH_IN_FLIGHT_FULL && claim(0) == ECCH_NO_CLAIM);
    EXPECT(waiting() == ECCH_IDENTIFIERS);
    memcpy(small, table, sizeof table);
    small[ECCH_IDENTIFIERS] = 0;
    EXPECT(ecch_inflight_claim(1, small, sizeof small, answer, 1) == ECCH_BAD_TABLE);
    EXPECT(ecch_inflight_claim(1, table, sizeof table, answer, 0) == ECCH_IN_FLIGHT_FULL);
}

/* The model: from 02's words, in C's plain way. */
static uint8_t model[ECCH_IDENTIFIERS];

static uint32_t seed = 12345;
static unsigned draw(unsigned n) {
    seed = seed * 1664525u + 1013904223u;
    return (seed >> 8) % n;
}

static uint32_t model_claim(unsigned qos, uint64_t *id) {
    unsigned i;
    *id = 0;
    if (qos == 0) return 30;
    for (i = 0; i < ECCH_IDENTIFIERS && model[i]; i++);
    if (i == ECCH_IDENTIFIERS) return 29;
    model[i] = (uint8_t)qos;
    *id = i + 1;
    return 0;
}

static uint32_t model_acked(unsigned kind, unsigned id, unsigned reason, uint64_t *now) {
    uint8_t due = kind == 4 ? 1 : kind == 5 ? 2 : kind == 7 ? 3 : 0;
    *now = 0;
    if (!due || id < 1 || id > ECCH_IDENTIFIERS || model[id - 1] != due) return 31;
    model[id - 1] = kind == 5 && reason < 0x80 ? 3 : 0;
    *now = model[id - 1];
    return 0;
}

static void at_random(unsigned long calls) {
    unsigned long n, granted = 0, freed = 0;
    ecch_inflight_start(table, sizeof table);
    for (n = 0; n < calls; n++) {
        uint32_t got, want;
        uint64_t value;
        unsigned crowded = (unsigned)(n >> 15) & 1;
        if (draw(8) < (crowded ? 5u : 3u)) {
            unsigned qos = draw(3);
            got = claim(qos);
            want = model_claim(qos, &value);
            granted += !want;
        } else {
            static const uint8_t kinds[] = {4, 5, 6, 7, 4, 5, 7, 3};
            unsigned kind = kinds[draw(8)], id = draw(16) ? draw(crowded ? ECCH_IDENTIFIERS + 2 : 12) : draw(65536), reason = draw(256);
            got = acked(kind, id, reason);
            want = model_acked(kind, id, reason, &value);
            freed += !want && !value;
        }
        EXPECT(got == want);
        EXPECT(answer[0] == value);
        if (n % 64 == 0) EXPECT(!memcmp(table, model, sizeof table));
        if (n % 64 == 0) EXPECT(waiting() == granted - freed);
    }
    EXPECT(!memcmp(table, model, sizeof table));
}

int main(int argc, char **argv) {
    no_table();
    by_hand();
    at_random(argc > 1 ? strtoul(argv[1], NULL, 10) : 1000000);
    printf("%lu of %lu as expected\n", tried - failed, tried);
    return failed > 0;
}
