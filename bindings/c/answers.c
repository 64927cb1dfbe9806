/* Three messages sent, and their answers taken in another order; the table is kept in a journal all the while. */
#include <inttypes.h>
#include <stdio.h>
#include <stdlib.h>

#include "ecchjulmina.h"

static uint8_t table[ECCH_IDENTIFIERS];
/* two blocks of a journal; in a file, write the block that a save says and no other */
static uint8_t area[1024];

static uint16_t claim(uint8_t qos) {
    uint64_t id;
    if (ecch_inflight_claim(qos, table, sizeof table, &id, 1)) exit(1);
    return (uint16_t)id;
}

/* An acknowledgement that was read with ecch_read: its kind, identifier and reason. */
static void acked(uint8_t kind, uint16_t id, uint64_t want) {
    uint64_t now;
    if (ecch_inflight_acked(kind, id, 0, table, sizeof table, &now, 1) || now != want) exit(1);
}

static uint64_t waiting(void) {
    uint64_t n;
    if (ecch_inflight_waiting(table, sizeof table, &n, 1)) exit(1);
    return n;
}

static uint64_t save(void) {
    uint64_t answer[2];
    if (ecch_journal_save(table, sizeof table, area, sizeof area, answer, 2)) exit(1);
    return answer[0];
}

static void show(void) {
    static const char *const names[] = {"", "PubAck", "PubRec", "PubComp"};
    const char *between = "";
    size_t i;
    printf("waiting: {");
    for (i = 0; i < sizeof table; i++) {
        if (!table[i]) continue;
        printf("%s%zu: %s", between, i + 1, names[table[i]]);
        between = ", ";
    }
    printf("}\n");
}

int main(void) {
    uint16_t first, second, third;
    uint64_t number;
    if (ecch_journal_start(area, sizeof area) || ecch_inflight_start(table, sizeof table)) return 1;
    first = claim(1);
    second = claim(2);
    third = claim(1);
    printf("sent %u, %u and %u; ", first, second, third);
    show();
    printf("saved under number %" PRIu64 "\n", save());
    acked(ECCH_PUBACK, third, 0);
    acked(ECCH_PUBREC, second, 3); /* waits for PubComp now: time for the PubRel */
    acked(ECCH_PUBACK, first, 0);
    printf("answered %u, %u, %u; ", third, second, first);
    show();
    acked(ECCH_PUBCOMP, second, 0);
    printf("completed %u; %" PRIu64 " waiting\n", second, waiting());
    printf("saved under number %" PRIu64 "\n", save());
    if (ecch_journal_recover(area, sizeof area, table, sizeof table, &number, 1)) return 1;
    printf("after a cut: number %" PRIu64 ", %" PRIu64 " waiting\n", number, waiting());
    return 0;
}
