/* P11 from C, over lent memory: a save cut at each of its 512 bytes, and with each byte torn, for areas of 2, 3 and 5 blocks; after each, recovery
   gives the table before the save or after it. */
#include "ecchjulmina.h"

#include <stdio.h>
#include <stdlib.h>
#include <string.h>

static unsigned long failed, tried;

static void expect(int right, const char *what, int line) {
    tried++;
    if (!right && failed++ < 20) printf("test_journal.c:%d: %s\n", line, what);
}
#define EXPECT(x) expect(x, #x, __LINE__)

enum { BLOCK = 512, MOST = 5 };
static uint8_t area[MOST * BLOCK], torn[MOST * BLOCK], after[MOST * BLOCK];
static uint8_t table[ECCH_IDENTIFIERS], back[ECCH_IDENTIFIERS];

static uint32_t seed = 4711;
static unsigned draw(unsigned n) {
    seed = seed * 1664525u + 1013904223u;
    return (seed >> 8) % n;
}

/* what recovery says of an area: 0 and the number, or the refusal */
static uint32_t recovered(const uint8_t *a, size_t len, uint64_t *number) {
    uint64_t answer[1];
    uint32_t got = ecch_journal_recover(a, len, back, sizeof back, answer, 1);
    *number = answer[0];
    return got;
}

static void cuts(size_t blocks) {
    size_t len = blocks * BLOCK, k;
    uint8_t before[ECCH_IDENTIFIERS];
    uint64_t number, saved[2];
    unsigned round;
    memset(area, 0xA5, sizeof area);
    EXPECT(ecch_journal_start(area, len) == 0);
    EXPECT(recovered(area, len, &number) == ECCH_JOURNAL_EMPTY);
    for (k = 0; k < sizeof back; k++) EXPECT(back[k] == 0);
    for (round = 1; round <= 2 * MOST + 3; round++) {
        uint64_t last;
        uint32_t was = recovered(area, len, &last);
        memcpy(before, back, sizeof before);
        for (k = 0; k < sizeof table; k++) table[k] = (uint8_t)(draw(3) ? 0 : draw(4));
        memcpy(after, area, len);
        EXPECT(ecch_journal_save(table, sizeof table, after, len, saved, 2) == 0);
        EXPECT(saved[0] == round && saved[1] == (round - 1) % blocks);
        for (k = 0; k < len; k++) if (k / BLOCK != saved[1]) EXPECT(after[k] == area[k]);
        for (k = 0; k <= BLOCK; k++) {
            size_t at = (size_t)saved[1] * BLOCK;
            uint32_t got;
            /* the first k bytes were stored */
            memcpy(torn, area, len);
            memcpy(torn + at, after + at, k);
            got = recovered(torn, len, &number);
            if (got == 0 && number == round) EXPECT(!memcmp(back, table, sizeof back));
            else EXPECT(got == was && number == last && !memcmp(back, before, sizeof back));
            EXPECT(k < BLOCK || (got == 0 && number == round));
            if (k == BLOCK) break;
            /* all were stored, and byte k is torn */
            memcpy(torn + at, after + at, BLOCK);
            torn[at + k] ^= (uint8_t)(1 + draw(255));
            got = recovered(torn, len, &number);
            EXPECT(got == was && number == last && !memcmp(back, before, sizeof back));
            /* the next save uses the same number and block again */
            if (k % 64 == 0) {
                uint64_t again[2];
                EXPECT(ecch_journal_save(table, sizeof table, torn, len, again, 2) == 0 && again[0] == round && again[1] == saved[1]);
                EXPECT(!memcmp(torn, after, len));
            }
        }
        memcpy(area, after, len);
    }
}

static void refusals(void) {
    uint64_t answer[2], number;
    size_t len;
    for (len = 0; len < 4 * BLOCK; len++) if (len % BLOCK || len < 2 * BLOCK) {
        memset(area, 7, sizeof area);
        EXPECT(ecch_journal_start(area, len) == ECCH_BAD_AREA && area[0] == 7);
        EXPECT(ecch_journal_save(table, sizeof table, area, len, answer, 2) == ECCH_BAD_AREA && area[0] == 7);
        EXPECT(ecch_journal_save(table, 1, area, len, answer, 2) == ECCH_BAD_AREA);
        memset(back, 2, sizeof back);
        EXPECT(recovered(area, len, &number) == ECCH_BAD_AREA && back[0] == 2 && back[ECCH_IDENTIFIERS - 1] == 2);
    }
    ecch_journal_start(area, 2 * BLOCK);
    EXPECT(ecch_journal_save(table, sizeof table - 1, area, 2 * BLOCK, answer, 2) == ECCH_BAD_TABLE && area[7] == 0);
    EXPECT(ecch_journal_recover(area, 2 * BLOCK, back, sizeof back - 1, answer, 1) == ECCH_BAD_TABLE);
}

int main(void) {
    cuts(2);
    cuts(3);
    cuts(5);
    refusals();
    printf("%lu of %lu as expected\n", tried - failed, tried);
    return failed > 0;
}
