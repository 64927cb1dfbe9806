/* A walk over the user properties of a frame through the header (02's P7): what it yields, where it stands, and where it yields nothing; and the
 * filters of a Subscribe in a lent table. */
#include <stdio.h>
#include <string.h>

#include "ecchjulmina.h"

static unsigned cases, failures;
#define CHECK(what) \
    do { \
        cases++; \
        if (!(what)) { \
            failures++; \
            printf("line %d: %s\n", __LINE__, #what); \
        } \
    } while (0)

static uint64_t item[ECCH_NEXT_USER_NUMBERS + 1];

/* Walks the frame at the start of the stream and counts what is yielded; each key is the letter of its turn, from a on. */
static unsigned walk(const uint8_t *stream, size_t len) {
    uint64_t r[ECCH_RECORD_LEN];
    size_t at, end;
    unsigned n = 0, again;
    ecch_read(stream, len, 0, 0, r, ECCH_RECORD_LEN);
    at = (size_t)r[ECCH_BLOCK_START];
    end = at + (size_t)r[ECCH_BLOCK_LEN];
    for (;;) {
        memset(item, 0xEE, sizeof item);
        if (ecch_next_user(stream, len, (uint8_t)r[ECCH_KIND], at, end, item, ECCH_NEXT_USER_NUMBERS) != 0) break;
        CHECK(item[ECCH_NEXT_USER_KEY_LEN] == 1 && stream[item[ECCH_NEXT_USER_KEY_START]] == 'a' + n);
        CHECK(item[ECCH_NEXT_USER_VALUE_START] == item[ECCH_NEXT_USER_KEY_START] + 3);
        CHECK(item[ECCH_NEXT_USER_NEXT] == item[ECCH_NEXT_USER_VALUE_START] + item[ECCH_NEXT_USER_VALUE_LEN]);
        CHECK(item[ECCH_NEXT_USER_NUMBERS] == 0xEEEEEEEEEEEEEEEEu);
        at = (size_t)item[ECCH_NEXT_USER_NEXT];
        n++;
    }
    /* then 21 for ever */
    for (again = 0; again < 3; again++) {
        CHECK(ecch_next_user(stream, len, (uint8_t)r[ECCH_KIND], at, end, item, ECCH_NEXT_USER_NUMBERS) == ECCH_NO_ITEM);
        CHECK(item[ECCH_NEXT_USER_KEY_START] == 0 && item[ECCH_NEXT_USER_KEY_LEN] == 0 && item[ECCH_NEXT_USER_VALUE_START] == 0 && item[ECCH_NEXT_USER_VALUE_LEN] == 0);
        at = (size_t)item[ECCH_NEXT_USER_NEXT];
    }
    return n;
}
#define WALK(...) walk(((const uint8_t[]){__VA_ARGS__}), sizeof((const uint8_t[]){__VA_ARGS__}))

static uint64_t table[32], answer[ECCH_TABLE_NUMBERS + 1];

/* Fills a table of `room` numbers, which held other numbers, and gives how many of all are no longer what they were. */
static uint32_t fill(const uint8_t *stream, size_t len, size_t room, unsigned *set) {
    uint32_t number;
    unsigned i;
    for (i = 0; i < 32; i++) table[i] = 1000000 + i;
    memset(answer, 0xEE, sizeof answer);
    number = ecch_filter_table(stream, len, table, room, answer, ECCH_TABLE_NUMBERS);
    for (*set = 0, i = 0; i < 32; i++) *set += table[i] != 1000000 + i;
    CHECK(answer[ECCH_TABLE_NUMBERS] == 0xEEEEEEEEEEEEEEEEu);
    return number;
}
#define STREAM(...) ((const uint8_t[]){__VA_ARGS__}), sizeof((const uint8_t[]){__VA_ARGS__})
static int answered(uint64_t taken, uint64_t one, uint64_t two, uint64_t filled) {
    return answer[ECCH_TABLE_TAKEN] == taken && answer[ECCH_TABLE_VALUE_1] == one && answer[ECCH_TABLE_VALUE_2] == two && answer[ECCH_TABLE_FILLED] == filled;
}
static int entry(unsigned i, uint64_t start, uint64_t len, uint64_t options) {
    const uint64_t *e = table + i * ECCH_ENTRY_NUMBERS;
    return e[ECCH_ENTRY_START] == start && e[ECCH_ENTRY_LEN] == len && e[ECCH_ENTRY_OPTIONS] == options;
}

/* Three filters: a, b/c with every option and bits 6 and 7 set, and an empty one. */
#define THREE 0x82, 16, 0, 1, 0, 0, 1, 'a', 1, 0, 3, 'b', '/', 'c', 0xEE, 0, 0, 2

static void tables(void) {
    unsigned set, room;
    /* just enough places, and one or two numbers more, which stay; more places keep what they held */
    for (room = 9; room <= 14; room++) {
        CHECK(fill(STREAM(THREE, 0x99), room, &set) == 0 && answered(18, 0, 0, 3) && set == 9);
        CHECK(entry(0, 7, 1, 1) && entry(1, 11, 3, 0x2E) && entry(2, 17, 0, 2));
    }
    /* too few places, down to none: untouched */
    for (room = 0; room < 9; room++) CHECK(fill(STREAM(THREE), room, &set) == ECCH_FILTER_TABLE_FULL && answered(18, 3, 0, 0) && set == 0);
    /* with properties before the filters */
    CHECK(fill(STREAM(0x82, 13, 0, 1, 6, 38, 0, 1, 'a', 0, 0, 0, 1, 'f', 0), 3, &set) == 0 && answered(15, 0, 0, 1) && set == 3 && entry(0, 13, 1, 0));
    /* another kind, accepted; pings; the reader's refusals with their values and what they take */
    CHECK(fill(STREAM(0x30, 4, 0, 1, 't', 0), 9, &set) == ECCH_NOT_SUBSCRIBE && answered(6, 0, 0, 0) && set == 0);
    CHECK(fill(STREAM(0xA2, 6, 0, 1, 0, 0, 1, 'f'), 9, &set) == ECCH_NOT_SUBSCRIBE && answered(8, 0, 0, 0) && set == 0);
    CHECK(fill(STREAM(0xC0, 0, 7), 0, &set) == ECCH_NOT_SUBSCRIBE && answered(2, 0, 0, 0) && set == 0);
    CHECK(fill(STREAM(0x82, 16, 0, 1, 0), 9, &set) == ECCH_INSUFFICIENT_BYTES && answered(0, 13, 0, 0) && set == 0);
    CHECK(fill(STREAM(0x82, 3, 0, 1, 0), 9, &set) == ECCH_EMPTY_SUBSCRIPTION && answered(5, 0, 0, 0) && set == 0);
    CHECK(fill(STREAM(0x82, 7, 0, 1, 0, 0, 1, 'a', 3), 9, &set) == ECCH_INVALID_QOS && answered(9, 3, 0, 0) && set == 0);
    CHECK(fill(STREAM(0x82, 11, 0, 1, 0, 0, 1, 'a', 0, 0, 9, 'b', 0), 9, &set) == ECCH_BOUNDARY_CROSSED && answered(13, 9, 0, 0) && set == 0);
    CHECK(fill(STREAM(0x10, 1, 0), 9, &set) == ECCH_KIND_NOT_CARRIED && answered(3, 1, 0, 0) && set == 0);
    CHECK(fill(ECCH_NOTHING, 0, 9, &set) == ECCH_INSUFFICIENT_BYTES && answered(0, 2, 0, 0) && set == 0);
    /* a shorter answer takes what fits, and the table is filled all the same */
    memset(answer, 0xEE, sizeof answer);
    CHECK(ecch_filter_table(STREAM(THREE), table, 9, answer, 1) == 0 && answer[ECCH_TABLE_TAKEN] == 18 && answer[ECCH_TABLE_VALUE_1] == 0xEEEEEEEEEEEEEEEEu && entry(2, 17, 0, 2));
}

int main(void) {
    /* Publish: two, with another property before, between and behind them, and bytes behind the frame */
    CHECK(WALK(0x30, 26, 0, 1, 't', 21, 11, 5, 38, 0, 1, 'a', 0, 1, '1', 1, 1, 38, 0, 1, 'b', 0, 0, 3, 0, 1, 'c', 'x', 0x26, 0) == 2);
    /* Publish with no property, and with none of these */
    CHECK(WALK(0x30, 4, 0, 1, 't', 0) == 0);
    CHECK(WALK(0x30, 6, 0, 1, 't', 2, 11, 5) == 0);
    /* PubAck, PubComp, Subscribe, SubAck, Unsubscribe */
    CHECK(WALK(0x40, 10, 0, 1, 0, 6, 38, 0, 1, 'a', 0, 0) == 1);
    CHECK(WALK(0x70, 14, 0, 1, 0, 10, 31, 0, 1, 'r', 38, 0, 1, 'a', 0, 0) == 1);
    CHECK(WALK(0x82, 13, 0, 1, 6, 38, 0, 1, 'a', 0, 0, 0, 1, 'f', 0) == 1);
    CHECK(WALK(0x90, 16, 0, 1, 12, 38, 0, 1, 'a', 0, 0, 38, 0, 1, 'b', 0, 0, 0) == 2);
    CHECK(WALK(0xA2, 12, 0, 1, 6, 38, 0, 1, 'a', 0, 0, 0, 1, 'f') == 1);
    /* no block sent, a ping, frames that are refused, no frame */
    CHECK(WALK(0x40, 2, 0, 1) == 0);
    CHECK(WALK(0xC0, 0) == 0);
    CHECK(WALK(0x82, 9, 0, 1, 6, 38, 0, 1, 'a', 0, 0) == 0);
    CHECK(WALK(0x30, 10, 0, 1, 't', 6, 38, 0, 1, 'a', 0) == 0);
    CHECK(WALK(0x10, 1, 0) == 0);
    /* a kind with no block; an end past the frame; a shorter array */
    CHECK(ecch_next_user((const uint8_t[]){38, 0, 0, 0, 0}, 5, 12, 0, 5, item, ECCH_NEXT_USER_NUMBERS) == ECCH_NO_ITEM && item[ECCH_NEXT_USER_NEXT] == 0);
    CHECK(ecch_next_user((const uint8_t[]){38, 0, 0, 0, 0}, 5, 3, 0, 6, item, ECCH_NEXT_USER_NUMBERS) == ECCH_NO_ITEM);
    memset(item, 0xEE, sizeof item);
    CHECK(ecch_next_user((const uint8_t[]){38, 0, 0, 0, 0}, 5, 3, 0, 5, item, 1) == 0 && item[ECCH_NEXT_USER_NEXT] == 5 && item[1] == 0xEEEEEEEEEEEEEEEEu);
    tables();
    printf("%u checks, %u failed\n", cases, failures);
    return failures != 0;
}
