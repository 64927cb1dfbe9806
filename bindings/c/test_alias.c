/* Topics by alias through the exported functions: a stream that sets and uses aliases, each refusal at its edges and in its order, every byte
 * of the table, and where the topic in force lies. One line for each case that fails, and a last line with the count. */
#include "ecchjulmina.h"

#include <stdio.h>
#include <string.h>

static unsigned cases, failures;

#define CHECK(x) check((x), __LINE__, #x)

static void check(int ok, int line, const char *what) {
    cases++;
    if (!ok) {
        failures++;
        printf("line %d: %s\n", line, what);
    }
}

static uint8_t table[ECCH_ALIAS_TABLE_LEN + 1], before[ECCH_ALIAS_TABLE_LEN + 1];
static uint64_t item[ECCH_FORCE_NUMBERS + 1];
static uint8_t letters[300];

static void fresh(void) { memset(table, 0, sizeof table); }

/* The topic is the first len letters. */
static uint32_t learn(size_t len, uint8_t on, uint16_t alias, size_t size) {
    memcpy(before, table, sizeof table);
    return ecch_alias_learn(letters, sizeof letters, 0, len, on, alias, table, size);
}

static uint32_t find(size_t len, uint8_t on, uint16_t alias, size_t size) {
    uint32_t r;
    memset(item, 0xEE, sizeof item);
    r = ecch_topic_in_force(letters, sizeof letters, 0, len, on, alias, table, size, item, ECCH_FORCE_NUMBERS);
    CHECK(item[ECCH_FORCE_NUMBERS] == 0xEEEEEEEEEEEEEEEEu);
    return r;
}

static int same(void) { return memcmp(before, table, sizeof table) == 0; }

static int lies(uint64_t slice, uint64_t start, uint64_t len) {
    return item[ECCH_FORCE_SLICE] == slice && item[ECCH_FORCE_START] == start && item[ECCH_FORCE_LEN] == len;
}

/* Both give the refusal; the table stays, and the place is zeros. */
static void refused(size_t len, uint8_t on, uint16_t alias, size_t size, uint32_t number) {
    CHECK(find(len, on, alias, size) == number);
    CHECK(lies(0, 0, 0));
    CHECK(learn(len, on, alias, size) == number);
    CHECK(same());
}

static void refusals(void) {
    size_t a;
    fresh();
    /* the size of the table, before all else */
    refused(1, 0, 0, 0, ECCH_ALIAS_TABLE_BAD);
    refused(1, 1, 1, ECCH_ALIAS_TABLE_LEN - 1, ECCH_ALIAS_TABLE_BAD);
    refused(0, 1, 17, ECCH_ALIAS_TABLE_LEN + 1, ECCH_ALIAS_TABLE_BAD);
    /* a stored length of 129, of each alias; 128 is good */
    for (a = 1; a <= 16; a++) {
        fresh();
        table[(a - 1) * 129] = 129;
        refused(1, 0, 0, ECCH_ALIAS_TABLE_LEN, ECCH_ALIAS_TABLE_BAD);
        refused(0, 1, 0, ECCH_ALIAS_TABLE_LEN, ECCH_ALIAS_TABLE_BAD);
        table[(a - 1) * 129] = 128;
        CHECK(learn(1, 0, 0, ECCH_ALIAS_TABLE_LEN) == ECCH_OK);
        CHECK(same());
        CHECK(find(0, 1, (uint16_t)a, ECCH_ALIAS_TABLE_LEN) == ECCH_OK);
        CHECK(lies(ECCH_IN_TABLE, (a - 1) * 129 + 1, 128));
    }
    fresh();
    refused(1, 1, 0, ECCH_ALIAS_TABLE_LEN, ECCH_ALIAS_INVALID);
    refused(0, 1, 0, ECCH_ALIAS_TABLE_LEN, ECCH_ALIAS_INVALID);
    refused(200, 1, 17, ECCH_ALIAS_TABLE_LEN, ECCH_ALIAS_INVALID);
    refused(1, 1, 65535, ECCH_ALIAS_TABLE_LEN, ECCH_ALIAS_INVALID);
    refused(0, 0, 0, ECCH_ALIAS_TABLE_LEN, ECCH_TOPIC_MISSING);
    refused(0, 0, 5, ECCH_ALIAS_TABLE_LEN, ECCH_TOPIC_MISSING);
    refused(0, 1, 5, ECCH_ALIAS_TABLE_LEN, ECCH_ALIAS_UNKNOWN);
    refused(129, 1, 5, ECCH_ALIAS_TABLE_LEN, ECCH_ALIAS_NO_ROOM);
    /* with no alias a topic may be longer; an alias that is off is not looked at */
    CHECK(learn(129, 0, 99, ECCH_ALIAS_TABLE_LEN) == ECCH_OK);
    CHECK(same());
    CHECK(find(300, 0, 0, ECCH_ALIAS_TABLE_LEN) == ECCH_OK);
    CHECK(lies(ECCH_IN_STREAM, 0, 300));
    /* a place that does not lie in the stream is an empty topic */
    CHECK(ecch_alias_learn(letters, sizeof letters, 1, sizeof letters, 0, 0, table, ECCH_ALIAS_TABLE_LEN) == ECCH_TOPIC_MISSING);
    CHECK(ecch_alias_learn(letters, sizeof letters, (size_t)-1, 2, 1, 5, table, ECCH_ALIAS_TABLE_LEN) == ECCH_ALIAS_UNKNOWN);
}

/* Setting writes its length and topic and no other byte; what it stands for is found. */
static void setting(void) {
    size_t a, n, i;
    for (a = 1; a <= 16; a++)
        for (n = 1; n <= 128; n += n < 8 || n > 120 ? 1 : 7) {
            size_t slot = (a - 1) * 129;
            for (i = 0; i < ECCH_ALIAS_TABLE_LEN; i++) table[i] = (uint8_t)(i % 129 ? i : 77);
            CHECK(learn(n, 1, (uint16_t)a, ECCH_ALIAS_TABLE_LEN) == ECCH_OK);
            CHECK(table[slot] == n && memcmp(table + slot + 1, letters, n) == 0);
            memcpy(before + slot, table + slot, n + 1);
            CHECK(same());
            CHECK(find(0, 1, (uint16_t)a, ECCH_ALIAS_TABLE_LEN) == ECCH_OK);
            CHECK(lies(ECCH_IN_TABLE, slot + 1, n));
            CHECK(find(n, 1, (uint16_t)a, ECCH_ALIAS_TABLE_LEN) == ECCH_OK);
            CHECK(lies(ECCH_IN_STREAM, 0, n));
        }
    /* an empty topic sets nothing */
    CHECK(learn(0, 1, 16, ECCH_ALIAS_TABLE_LEN) == ECCH_OK);
    CHECK(same());
    /* of a shorter array what fits is set */
    memset(item, 0xEE, sizeof item);
    CHECK(ecch_topic_in_force(letters, sizeof letters, 0, 0, 1, 16, table, ECCH_ALIAS_TABLE_LEN, item, 2) == ECCH_OK);
    CHECK(item[0] == ECCH_IN_TABLE && item[1] == 15 * 129 + 1 && item[2] == 0xEEEEEEEEEEEEEEEEu);
}

/* Three frames as a broker sends them: a/b with alias 5, then none with alias 5, then c with alias 5, then none again. */
static void a_stream(void) {
    static const uint8_t stream[] = {
        0x30, 0x0A, 0x00, 0x03, 0x61, 0x2F, 0x62, 0x03, 0x23, 0x00, 0x05, 0x31, 0x30, 0x07, 0x00, 0x00, 0x03, 0x23, 0x00,
        0x05, 0x32, 0x30, 0x08, 0x00, 0x01, 0x63, 0x03, 0x23, 0x00, 0x05, 0x33, 0x30, 0x07, 0x00, 0x00, 0x03, 0x23, 0x00, 0x05, 0x34,
    };
    static const char *const topics[] = {"a/b", "a/b", "c", "c"};
    size_t at = 0, n = 0;
    fresh();
    while (at < sizeof stream) {
        uint64_t r[ECCH_RECORD_LEN];
        const uint8_t *part;
        CHECK(ecch_read(stream + at, sizeof stream - at, 0, 0, r, ECCH_RECORD_LEN) == ECCH_OK);
        CHECK(ecch_alias_learn(stream + at, sizeof stream - at, r[ECCH_TOPIC_START], r[ECCH_TOPIC_LEN], (uint8_t)r[ECCH_ALIAS], (uint16_t)r[ECCH_ALIAS_VALUE], table, ECCH_ALIAS_TABLE_LEN) == ECCH_OK);
        CHECK(ecch_topic_in_force(stream + at, sizeof stream - at, r[ECCH_TOPIC_START], r[ECCH_TOPIC_LEN], (uint8_t)r[ECCH_ALIAS], (uint16_t)r[ECCH_ALIAS_VALUE], table, ECCH_ALIAS_TABLE_LEN, item, ECCH_FORCE_NUMBERS) == ECCH_OK);
        part = (item[ECCH_FORCE_SLICE] == ECCH_IN_TABLE ? table : stream + at) + item[ECCH_FORCE_START];
        CHECK(item[ECCH_FORCE_SLICE] == (n % 2 ? ECCH_IN_TABLE : ECCH_IN_STREAM));
        CHECK(item[ECCH_FORCE_LEN] == strlen(topics[n]) && memcmp(part, topics[n], strlen(topics[n])) == 0);
        at += r[ECCH_TAKEN];
        n++;
    }
    CHECK(n == 4);
}

int main(void) {
    size_t i;
    for (i = 0; i < sizeof letters; i++) letters[i] = (uint8_t)('a' + i % 26);
    refusals();
    setting();
    a_stream();
    printf("%u checks of topics by alias, %u failed\n", cases, failures);
    return failures != 0;
}
