/* The header against the library: rows of 01's and 02's refusals, items, walks, parts, names, reasons, sizes and writes through the exported
 * functions. One line for each case that fails, and a last line with the count. */
#include "ecchjulmina.h"

#include <stdio.h>
#include <string.h>

static unsigned cases, failures;

#define CHECK(x) check((x), __LINE__, #x)

static void check(int ok, int line, const char *what) {
    cases++;
    if (!ok) {
        failures++;
        printf("line %d: %s\n", line, what);
    }
}

#define BYTES(...) ((const uint8_t[]){__VA_ARGS__}), sizeof((const uint8_t[]){__VA_ARGS__})
#define NONE ((const uint8_t *)ECCH_NOTHING), (size_t)0
#define NO_LENGTHS ((const size_t *)ECCH_NOTHING), (size_t)0
#define NO_NUMBERS ((const uint32_t *)ECCH_NOTHING), (size_t)0
#define FREE 0, 0

static uint64_t rec[ECCH_RECORD_LEN + 1];
static uint64_t ans[ECCH_ANSWER_LEN + 1];

static uint32_t reads(const uint8_t *stream, size_t len, uint8_t limited, size_t limit) {
    memset(rec, 0xEE, sizeof rec);
    return ecch_read(stream, len, limited, limit, rec, ECCH_RECORD_LEN);
}

/* What a refusal says: its number, its values and what it takes; all else is 0. */
static void refused(const uint8_t *stream, size_t len, uint8_t limited, size_t limit, uint32_t number, uint64_t first, uint64_t second, uint64_t taken) {
    size_t i;
    CHECK(reads(stream, len, limited, limit) == number);
    CHECK(rec[ECCH_TAKEN] == taken);
    CHECK(rec[ECCH_VALUE_1] == first);
    CHECK(rec[ECCH_VALUE_2] == second);
    for (i = ECCH_KIND; i < ECCH_RECORD_LEN; i++) CHECK(rec[i] == 0);
    CHECK(rec[ECCH_RECORD_LEN] == 0xEEEEEEEEEEEEEEEEu);
}

/* Which numbers of the record are not 0, besides those of taken and kind and of where the properties stand: a list that ends in 0. */
static void others(const size_t *places) {
    size_t i;
    for (i = ECCH_KIND + 1; i < ECCH_PROPERTIES_START; i++) {
        const size_t *p = places;
        while (*p != 0 && *p != i) p++;
        CHECK((rec[i] != 0) == (*p == i));
    }
}
#define OTHERS(...) others((const size_t[]){__VA_ARGS__, 0})

static void refusals(void) {
    refused(NONE, FREE, ECCH_INSUFFICIENT_BYTES, 2, 0, 0);
    refused(BYTES(0x30), FREE, ECCH_INSUFFICIENT_BYTES, 1, 0, 0);
    refused(BYTES(0x30, 0x80), FREE, ECCH_INSUFFICIENT_BYTES, 1, 0, 0);
    refused(BYTES(0x30, 0x80, 0x80, 0x80, 0x80), FREE, ECCH_MALFORMED_REMAINING_LENGTH, 0, 0, 0);
    refused(BYTES(0xF0, 0x00), FREE, ECCH_INVALID_PACKET_TYPE, 15, 0, 2);
    refused(BYTES(0x30, 0x00), FREE, ECCH_PAYLOAD_REQUIRED, 0, 0, 2);
    refused(BYTES(0x10, 0x01, 0x00), FREE, ECCH_KIND_NOT_CARRIED, 1, 0, 3);
    refused(BYTES(0x30, 0x08, 0x00, 0x03, 'a', '/', 'b', 0x00, 'h', 'i'), 1, 9, ECCH_PAYLOAD_SIZE_LIMIT_EXCEEDED, 10, 9, 0);
    refused(BYTES(0x30, 0x08, 0x00, 0x03, 'a', '/', 'b', 0x00, 'h', 'i'), 1, 0, ECCH_PAYLOAD_SIZE_LIMIT_EXCEEDED, 10, 0, 0);
    refused(BYTES(0x30, 0x08), 1, 9, ECCH_PAYLOAD_SIZE_LIMIT_EXCEEDED, 10, 9, 0);
    refused(BYTES(0x30, 0x08), 1, 10, ECCH_INSUFFICIENT_BYTES, 8, 0, 0);
    refused(BYTES(0x30, 0xFF, 0xFF, 0xFF, 0x7F), 1, 268435459, ECCH_PAYLOAD_SIZE_LIMIT_EXCEEDED, 268435460, 268435459, 0);
    refused(BYTES(0x30, 0xFF, 0xFF, 0xFF, 0x7F), 1, 268435460, ECCH_INSUFFICIENT_BYTES, 268435455, 0, 0);
    refused(BYTES(0xC0, 0x00), 1, 1, ECCH_PAYLOAD_SIZE_LIMIT_EXCEEDED, 2, 1, 0);
    refused(BYTES(0x32, 0x06, 0x00, 0x01, 'a', 0x00, 0x00, 0x00), FREE, ECCH_PACKET_ID_ZERO, 0, 0, 8);
    refused(BYTES(0x30, 0x06, 0x00, 0x01, 'a', 0x01, 0x01, 0x00), FREE, ECCH_MALFORMED_PACKET, 0, 0, 8);
    refused(BYTES(0x30, 0x03, 0x00, 0x01, 'a'), FREE, ECCH_MALFORMED_PACKET, 0, 0, 5);
    refused(BYTES(0x30, 0x03, 0x00, 0x09, 'a'), FREE, ECCH_BOUNDARY_CROSSED, 9, 0, 5);
    refused(BYTES(0x82, 0x07, 0x00, 0x01, 0x00, 0x00, 0x01, 'a', 0x33), FREE, ECCH_INVALID_RETAIN_FORWARD_RULE, 3, 0, 9);
    refused(BYTES(0x82, 0x03, 0x00, 0x01, 0x00), FREE, ECCH_EMPTY_SUBSCRIPTION, 0, 0, 5);
    refused(BYTES(0x36, 0x04, 0x00, 0x01, 'a', 0x00), FREE, ECCH_INVALID_QOS, 3, 0, 6);
    refused(BYTES(0x40, 0x03, 0x00, 0x0A, 0x77), FREE, ECCH_INVALID_REASON, 0x77, 0, 5);
}

/* Numbers in more bytes than they need, in every place where one is read. */
static void spellings(void) {
    static const uint8_t firsts[] = {0x40, 0x50, 0x62, 0x70};
    static const uint8_t blocks[] = {0x82, 0x90, 0xA2, 0xB0};
    size_t i;
    refused(BYTES(0x30, 0x80, 0x00), FREE, ECCH_MALFORMED_REMAINING_LENGTH, 0, 0, 0);
    refused(BYTES(0x30, 0x80, 0x80, 0x00), FREE, ECCH_MALFORMED_REMAINING_LENGTH, 0, 0, 0);
    refused(BYTES(0x30, 0x80, 0x80, 0x80, 0x00), FREE, ECCH_MALFORMED_REMAINING_LENGTH, 0, 0, 0);
    refused(BYTES(0xC0, 0x80, 0x00), FREE, ECCH_MALFORMED_REMAINING_LENGTH, 0, 0, 0);
    refused(BYTES(0xF0, 0x85, 0x00), FREE, ECCH_MALFORMED_REMAINING_LENGTH, 0, 0, 0);
    refused(BYTES(0xC0, 0x80, 0x00), 1, 0, ECCH_MALFORMED_REMAINING_LENGTH, 0, 0, 0);
    refused(BYTES(0x30, 0x80, 0x80, 0x80), FREE, ECCH_INSUFFICIENT_BYTES, 1, 0, 0);
    refused(BYTES(0x30, 0x06, 0x00, 0x01, 'a', 0x80, 0x00, 'h'), FREE, ECCH_MALFORMED_REMAINING_LENGTH, 0, 0, 8);
    refused(BYTES(0x30, 0x08, 0x00, 0x01, 'a', 0x03, 11, 0x81, 0x00, 'h'), FREE, ECCH_MALFORMED_REMAINING_LENGTH, 0, 0, 10);
    refused(BYTES(0x82, 0x0A, 0x00, 0x01, 0x03, 11, 0x81, 0x00, 0x00, 0x01, 'a', 0x00), FREE, ECCH_MALFORMED_REMAINING_LENGTH, 0, 0, 12);
    for (i = 0; i < sizeof firsts; i++) refused(BYTES(firsts[i], 0x05, 0x00, 0x01, 0x00, 0x80, 0x00), FREE, ECCH_MALFORMED_REMAINING_LENGTH, 0, 0, 7);
    for (i = 0; i < sizeof blocks; i++) refused(BYTES(blocks[i], 0x05, 0x00, 0x01, 0x80, 0x00, 0x00), FREE, ECCH_MALFORMED_REMAINING_LENGTH, 0, 0, 7);
    CHECK(reads(BYTES(0x30, 0x85, 0x01, 0x00, 0x01, 'a', 0x80, 0x01), FREE) == ECCH_INSUFFICIENT_BYTES && rec[ECCH_VALUE_1] == 128);
}

/* A single-valued property twice, a subscription identifier 0, and U+0000 in text. */
static void strictness(void) {
    static const uint8_t once[][5] = {{1, 1}, {2, 0, 0, 0, 9}, {35, 0, 1}, {8, 0, 1, 'r'}, {9, 0, 1, 0}, {3, 0, 1, 'c'}};
    static const size_t lens[] = {2, 5, 3, 4, 4, 4};
    static const uint8_t acks[] = {0x40, 0x50, 0x62, 0x70};
    size_t i;
    for (i = 0; i < sizeof lens / sizeof *lens; i++) {
        uint8_t frame[32] = {0x30, 0, 0x00, 0x01, 'a'};
        size_t n = lens[i];
        frame[1] = (uint8_t)(4 + n);
        frame[5] = (uint8_t)n;
        memcpy(frame + 6, once[i], n);
        CHECK(reads(frame, 6 + n, FREE) == 0 && rec[ECCH_TAKEN] == 6 + n);
        /* the identifier alone is enough: what would follow it is not looked at */
        frame[1] = (uint8_t)(4 + n + 1);
        frame[5] = (uint8_t)(n + 1);
        frame[6 + n] = once[i][0];
        refused(frame, 7 + n, FREE, ECCH_DUPLICATE_PROPERTY, once[i][0], 0, 7 + n);
        memcpy(frame + 6 + n, once[i], n);
        frame[1] = (uint8_t)(4 + 2 * n);
        frame[5] = (uint8_t)(2 * n);
        refused(frame, 6 + 2 * n, FREE, ECCH_DUPLICATE_PROPERTY, once[i][0], 0, 6 + 2 * n);
    }
    for (i = 0; i < sizeof acks; i++) {
        refused(BYTES(acks[i], 0x08, 0x00, 0x01, 0x00, 0x04, 31, 0x00, 0x00, 31), FREE, ECCH_DUPLICATE_PROPERTY, 31, 0, 10);
        refused(BYTES(acks[i], 0x08, 0x00, 0x01, 0x00, 0x04, 31, 0x00, 0x01, 0x00), FREE, ECCH_TOPIC_NOT_UTF8, 0, 0, 10);
        refused(BYTES(acks[i], 0x08, 0x00, 0x01, 0x00, 0x04, 31, 0x00, 0x00, 11), FREE, ECCH_INVALID_PROPERTY_TYPE, 11, 0, 10);
    }
    for (i = 0x90; i <= 0xB0; i += 0x20) {
        refused(BYTES((uint8_t)i, 0x08, 0x00, 0x01, 0x04, 31, 0x00, 0x00, 31, 0x00), FREE, ECCH_DUPLICATE_PROPERTY, 31, 0, 10);
        refused(BYTES((uint8_t)i, 0x08, 0x00, 0x01, 0x04, 31, 0x00, 0x01, 0x00, 0x00), FREE, ECCH_TOPIC_NOT_UTF8, 0, 0, 10);
    }
    /* 11 is a list in a Publish, and single in a Subscribe; 0 is refused when the number is read, 22 before that. */
    CHECK(reads(BYTES(0x30, 0x08, 0x00, 0x01, 'a', 0x04, 11, 0x05, 11, 0x05), FREE) == 0);
    refused(BYTES(0x30, 0x06, 0x00, 0x01, 'a', 0x02, 11, 0x00), FREE, ECCH_SUBSCRIPTION_ID_ZERO, 0, 0, 8);
    refused(BYTES(0x30, 0x08, 0x00, 0x01, 'a', 0x04, 11, 0x05, 11, 0x00), FREE, ECCH_SUBSCRIPTION_ID_ZERO, 0, 0, 10);
    refused(BYTES(0x82, 0x09, 0x00, 0x01, 0x02, 11, 0x00, 0x00, 0x01, 'a', 0x00), FREE, ECCH_SUBSCRIPTION_ID_ZERO, 0, 0, 11);
    refused(BYTES(0x82, 0x0B, 0x00, 0x01, 0x04, 11, 0x05, 11, 0x00, 0x00, 0x01, 'a', 0x00), FREE, ECCH_DUPLICATE_PROPERTY, 11, 0, 13);
    refused(BYTES(0x82, 0x0B, 0x00, 0x01, 0x04, 11, 0x00, 11, 0x00, 0x00, 0x01, 'a', 0x00), FREE, ECCH_SUBSCRIPTION_ID_ZERO, 0, 0, 13);
    /* A topic and correlation data are bytes; all else is text. */
    CHECK(reads(BYTES(0x30, 0x04, 0x00, 0x01, 0x00, 0x00), FREE) == 0 && rec[ECCH_TOPIC_LEN] == 1);
    CHECK(reads(BYTES(0x30, 0x08, 0x00, 0x01, 'a', 0x04, 9, 0x00, 0x01, 0x00), FREE) == 0 && rec[ECCH_CORRELATION_LEN] == 1);
    refused(BYTES(0x30, 0x08, 0x00, 0x01, 'a', 0x04, 8, 0x00, 0x01, 0x00), FREE, ECCH_TOPIC_NOT_UTF8, 0, 0, 10);
    refused(BYTES(0x30, 0x08, 0x00, 0x01, 'a', 0x04, 3, 0x00, 0x01, 0x00), FREE, ECCH_TOPIC_NOT_UTF8, 0, 0, 10);
    refused(BYTES(0x30, 0x0A, 0x00, 0x01, 'a', 0x06, 38, 0x00, 0x01, 0x00, 0x00, 0x00), FREE, ECCH_TOPIC_NOT_UTF8, 0, 0, 12);
    refused(BYTES(0x30, 0x0A, 0x00, 0x01, 'a', 0x06, 38, 0x00, 0x00, 0x00, 0x01, 0x00), FREE, ECCH_TOPIC_NOT_UTF8, 0, 0, 12);
    refused(BYTES(0x82, 0x07, 0x00, 0x01, 0x00, 0x00, 0x01, 0x00, 0x00), FREE, ECCH_TOPIC_NOT_UTF8, 0, 0, 9);
    refused(BYTES(0xA2, 0x06, 0x00, 0x01, 0x00, 0x00, 0x01, 0x00), FREE, ECCH_TOPIC_NOT_UTF8, 0, 0, 8);
}

/* Kinds that are carried, that are not, and that are none. */
static void kinds(void) {
    unsigned k;
    for (k = 0; k < 16; k++) {
        const uint8_t first = (uint8_t)(k << 4);
        const int none = k == 0 || k == 15, ping = k == 12 || k == 13;
        if (!ping) refused(BYTES(first, 0x00), FREE, none ? ECCH_INVALID_PACKET_TYPE : ECCH_PAYLOAD_REQUIRED, none ? k : 0, 0, 2);
        if (none) refused(BYTES(first, 0x01, 0x00), FREE, ECCH_INVALID_PACKET_TYPE, k, 0, 3);
        else if (k < 3 || k == 14) refused(BYTES(first, 0x01, 0x00), FREE, ECCH_KIND_NOT_CARRIED, k, 0, 3);
        else if (!ping) refused(BYTES(first, 0x01, 0x00), FREE, ECCH_MALFORMED_PACKET, 0, 0, 3);
        else CHECK(reads(BYTES(first, 0x01, 0x00), FREE) == 0 && rec[ECCH_KIND] == k && rec[ECCH_TAKEN] == 3);
    }
}

static void packets(void) {
    size_t i;
    CHECK(reads(BYTES(0xC0, 0x00), FREE) == 0 && rec[ECCH_KIND] == ECCH_PINGREQ && rec[ECCH_TAKEN] == 2);
    others((const size_t[]){0});
    CHECK(reads(BYTES(0xD0, 0x00), FREE) == 0 && rec[ECCH_KIND] == ECCH_PINGRESP && rec[ECCH_TAKEN] == 2);
    CHECK(reads(BYTES(0x40, 0x02, 0x00, 0x0A), FREE) == 0 && rec[ECCH_KIND] == ECCH_PUBACK && rec[ECCH_PKID] == 10 && rec[ECCH_TAKEN] == 4 && rec[ECCH_REASON] == ECCH_PUBACK_SUCCESS);
    OTHERS(ECCH_PKID);
    CHECK(reads(BYTES(0x40, 0x03, 0x00, 0x0A, 0x10), FREE) == 0 && rec[ECCH_REASON] == 0x10 && rec[ECCH_TAKEN] == 5);
    OTHERS(ECCH_PKID, ECCH_REASON);
    CHECK(reads(BYTES(0x30, 0x08, 0x00, 0x03, 'a', '/', 'b', 0x00, 'h', 'i', 0x99), 1, 10) == 0 && rec[ECCH_KIND] == ECCH_PUBLISH);
    CHECK(rec[ECCH_TAKEN] == 10 && rec[ECCH_VALUE_1] == 0 && rec[ECCH_VALUE_2] == 0);
    CHECK(rec[ECCH_TOPIC_START] == 4 && rec[ECCH_TOPIC_LEN] == 3 && rec[ECCH_PAYLOAD_START] == 8 && rec[ECCH_PAYLOAD_LEN] == 2);
    OTHERS(ECCH_TOPIC_START, ECCH_TOPIC_LEN, ECCH_PAYLOAD_START, ECCH_PAYLOAD_LEN);
    CHECK(rec[ECCH_RECORD_LEN] == 0xEEEEEEEEEEEEEEEEu);

    /* Flags, identifier and every property of a Publish. */
    CHECK(reads(BYTES(0x3D, 36, 0x00, 0x01, 't', 0x12, 0x34, 30, 1, 1, 2, 0x01, 0x02, 0x03, 0x04, 35, 0x05, 0x06, 8, 0x00, 0x01, 'r', 9, 0x00, 0x02, 0xFE, 0xFF, 38, 0x00, 0x01, 'k', 0x00,
                       0x01, 'v', 3, 0x00, 0x01, 'c'), FREE) == 0);
    CHECK(rec[ECCH_DUP] == 1 && rec[ECCH_QOS] == 2 && rec[ECCH_RETAIN] == 1 && rec[ECCH_PKID] == 0x1234);
    CHECK(rec[ECCH_BLOCK] == 1 && rec[ECCH_BLOCK_START] == 8 && rec[ECCH_BLOCK_LEN] == 30);
    CHECK(rec[ECCH_FORMAT] == 1 && rec[ECCH_FORMAT_VALUE] == 1);
    CHECK(rec[ECCH_EXPIRY] == 1 && rec[ECCH_EXPIRY_VALUE] == 0x01020304);
    CHECK(rec[ECCH_ALIAS] == 1 && rec[ECCH_ALIAS_VALUE] == 0x0506);
    CHECK(rec[ECCH_RESPONSE] == 1 && rec[ECCH_RESPONSE_START] == 21 && rec[ECCH_RESPONSE_LEN] == 1);
    CHECK(rec[ECCH_CORRELATION] == 1 && rec[ECCH_CORRELATION_START] == 25 && rec[ECCH_CORRELATION_LEN] == 2);
    CHECK(rec[ECCH_CONTENT] == 1 && rec[ECCH_CONTENT_START] == 37 && rec[ECCH_CONTENT_LEN] == 1);
    CHECK(rec[ECCH_PAYLOAD_START] == 38 && rec[ECCH_PAYLOAD_LEN] == 0);
    CHECK(rec[ECCH_REASON] == 0 && rec[ECCH_REASON_STRING] == 0 && rec[ECCH_SUBSCRIPTION] == 0);

    /* Properties of a Subscribe and of a PubAck. */
    CHECK(reads(BYTES(0x82, 0x09, 0x00, 0x07, 0x02, 11, 0x05, 0x00, 0x01, 'a', 0x01), FREE) == 0 && rec[ECCH_KIND] == ECCH_SUBSCRIBE);
    CHECK(rec[ECCH_PKID] == 7 && rec[ECCH_FILTERS_START] == 7 && rec[ECCH_FILTERS_LEN] == 4);
    CHECK(rec[ECCH_BLOCK] == 1 && rec[ECCH_BLOCK_START] == 5 && rec[ECCH_BLOCK_LEN] == 2 && rec[ECCH_SUBSCRIPTION] == 1 && rec[ECCH_SUBSCRIPTION_VALUE] == 5);
    OTHERS(ECCH_PKID, ECCH_FILTERS_START, ECCH_FILTERS_LEN, ECCH_BLOCK, ECCH_BLOCK_START, ECCH_BLOCK_LEN, ECCH_SUBSCRIPTION, ECCH_SUBSCRIPTION_VALUE);
    CHECK(reads(BYTES(0x40, 0x08, 0x00, 0x0A, 0x87, 0x04, 31, 0x00, 0x01, 'n'), FREE) == 0 && rec[ECCH_REASON] == 0x87);
    CHECK(rec[ECCH_REASON_STRING] == 1 && rec[ECCH_REASON_STRING_START] == 9 && rec[ECCH_REASON_STRING_LEN] == 1 && rec[ECCH_BLOCK_START] == 6 && rec[ECCH_BLOCK_LEN] == 4);
    OTHERS(ECCH_PKID, ECCH_REASON, ECCH_BLOCK, ECCH_BLOCK_START, ECCH_BLOCK_LEN, ECCH_REASON_STRING, ECCH_REASON_STRING_START, ECCH_REASON_STRING_LEN);

    /* A shorter array takes what fits. */
    memset(rec, 0xEE, sizeof rec);
    CHECK(ecch_read(BYTES(0xC0, 0x00), FREE, rec, 2) == 0 && rec[ECCH_TAKEN] == 2 && rec[1] == 0);
    for (i = 2; i <= ECCH_RECORD_LEN; i++) CHECK(rec[i] == 0xEEEEEEEEEEEEEEEEu);
    /* That of a header that ended at 41 takes what it took, and so does that of one that ended at 37. */
    memset(rec, 0xEE, sizeof rec);
    CHECK(ecch_read(BYTES(0xC0, 0x00), FREE, rec, 42) == 0 && rec[ECCH_TOPICS_LEN] == 0);
    for (i = ECCH_PROPERTIES_START; i <= ECCH_RECORD_LEN; i++) CHECK(rec[i] == 0xEEEEEEEEEEEEEEEEu);
    memset(rec, 0xEE, sizeof rec);
    CHECK(ecch_read(BYTES(0xA2, 0x06, 0x00, 0x01, 0x00, 0x00, 0x01, 'a'), FREE, rec, 38) == 0 && rec[ECCH_KIND] == ECCH_UNSUBSCRIBE && rec[ECCH_SUBSCRIPTION_VALUE] == 0);
    for (i = ECCH_REASONS_START; i <= ECCH_RECORD_LEN; i++) CHECK(rec[i] == 0xEEEEEEEEEEEEEEEEu);
}

/* Where the properties start and end, of every layout, present, of length 0, and not sent; the stream may go on. */
#define STAND(start, end, ...) \
    CHECK(reads(BYTES(__VA_ARGS__), FREE) == 0 && rec[ECCH_PROPERTIES_START] == (start) && rec[ECCH_PROPERTIES_END] == (end))
static void properties_stand(void) {
    STAND(8, 8, 0x30, 0x08, 0x00, 0x03, 'a', '/', 'b', 0x00, 'h', 'i', 0x99);
    STAND(6, 12, 0x30, 0x0B, 0x00, 0x01, 'a', 0x06, 0x0B, 0x01, 0x0B, 0x02, 0x0B, 0x03, 0x07);
    STAND(8, 10, 0x32, 0x08, 0x00, 0x01, 'a', 0x00, 0x07, 0x02, 0x01, 0x01);
    STAND(5, 5, 0x82, 0x07, 0x00, 0x01, 0x00, 0x00, 0x01, 'a', 0x01);
    STAND(5, 7, 0x82, 0x09, 0x00, 0x07, 0x02, 11, 0x05, 0x00, 0x01, 'a', 0x01);
    STAND(4, 4, 0x40, 0x02, 0x00, 0x0A, 0x99);
    STAND(5, 5, 0x50, 0x03, 0x00, 0x0A, 0x10, 0x99);
    STAND(6, 6, 0x62, 0x04, 0x00, 0x0A, 0x00, 0x00, 0x99);
    STAND(6, 10, 0x70, 0x08, 0x00, 0x0A, 0x92, 0x04, 31, 0x00, 0x01, 'n');
    STAND(5, 5, 0x90, 0x04, 0x00, 0x01, 0x00, 0x01);
    STAND(5, 9, 0xB0, 0x08, 0x00, 0x01, 0x04, 31, 0x00, 0x01, 'n', 0x11);
    STAND(5, 5, 0xA2, 0x06, 0x00, 0x01, 0x00, 0x00, 0x01, 'a');
    STAND(5, 10, 0xA2, 0x0B, 0x00, 0x01, 0x05, 38, 0x00, 0x00, 0x00, 0x00, 0x00, 0x01, 'a');
    STAND(2, 2, 0xC0, 0x00, 0x99);
    STAND(4, 4, 0xD0, 0x02, 0x01, 0x02);
}

/* PubAck, PubRec, PubRel and PubComp: flags, identifier 0, the three lengths, the properties, and what is refused. */
static void acks(void) {
    unsigned k, flags;
    for (k = ECCH_PUBACK; k <= ECCH_PUBCOMP; k++) {
        const uint8_t first = (uint8_t)(k << 4);
        const uint8_t listed = k < ECCH_PUBREL ? ECCH_PUBACK_QUOTA_EXCEEDED : ECCH_PUBREL_PACKET_IDENTIFIER_NOT_FOUND;
        const uint8_t unlisted = k < ECCH_PUBREL ? ECCH_PUBREL_PACKET_IDENTIFIER_NOT_FOUND : ECCH_PUBACK_QUOTA_EXCEEDED;
        for (flags = 0; flags < 16; flags++) CHECK(reads(BYTES((uint8_t)(first | flags), 0x02, 0x00, 0x00), FREE) == 0 && rec[ECCH_KIND] == k && rec[ECCH_TAKEN] == 4);
        others((const size_t[]){0});
        CHECK(reads(BYTES(first, 0x02, 0x12, 0x34, 0x99), 1, 4) == 0 && rec[ECCH_KIND] == k && rec[ECCH_PKID] == 0x1234 && rec[ECCH_TAKEN] == 4);
        OTHERS(ECCH_PKID);
        CHECK(reads(BYTES(first, 0x03, 0x00, 0x0A, listed), FREE) == 0 && rec[ECCH_REASON] == listed && rec[ECCH_TAKEN] == 5);
        OTHERS(ECCH_PKID, ECCH_REASON);
        CHECK(reads(BYTES(first, 0x04, 0x00, 0x0A, listed, 0x00), FREE) == 0 && rec[ECCH_REASON] == listed && rec[ECCH_TAKEN] == 6);
        OTHERS(ECCH_PKID, ECCH_REASON);
        CHECK(reads(BYTES(first, 0x0E, 0x00, 0x0A, listed, 0x0A, 38, 0x00, 0x00, 0x00, 0x01, 'v', 31, 0x00, 0x01, 'n'), FREE) == 0 && rec[ECCH_KIND] == k && rec[ECCH_TAKEN] == 16);
        CHECK(rec[ECCH_BLOCK] == 1 && rec[ECCH_BLOCK_START] == 6 && rec[ECCH_BLOCK_LEN] == 10);
        CHECK(rec[ECCH_REASON_STRING] == 1 && rec[ECCH_REASON_STRING_START] == 15 && rec[ECCH_REASON_STRING_LEN] == 1);
        OTHERS(ECCH_PKID, ECCH_REASON, ECCH_BLOCK, ECCH_BLOCK_START, ECCH_BLOCK_LEN, ECCH_REASON_STRING, ECCH_REASON_STRING_START, ECCH_REASON_STRING_LEN);
        refused(BYTES(first, 0x03, 0x00, 0x0A, unlisted), FREE, ECCH_INVALID_REASON, unlisted, 0, 5);
        refused(BYTES(first, 0x05, 0x00, 0x0A, unlisted, 0x01, 0xFF), FREE, ECCH_INVALID_REASON, unlisted, 0, 7);
        refused(BYTES(first, 0x05, 0x00, 0x0A, 0x00, 0x00, 0xFF), FREE, ECCH_MALFORMED_PACKET, 0, 0, 7);
        refused(BYTES(first, 0x04, 0x00, 0x0A, 0x00, 0x80), FREE, ECCH_MALFORMED_PACKET, 0, 0, 6);
        refused(BYTES(first, 0x04, 0x00, 0x0A, 0x00, 0x01), FREE, ECCH_BOUNDARY_CROSSED, 1, 0, 6);
        refused(BYTES(first, 0x02, 0x00), FREE, ECCH_INSUFFICIENT_BYTES, 1, 0, 0);
        refused(BYTES(first, 0x02, 0x00, 0x01), 1, 3, ECCH_PAYLOAD_SIZE_LIMIT_EXCEEDED, 4, 3, 0);
    }
}

/* SubAck and UnsubAck: flags, identifier 0, the reasons, the properties, and what is refused. */
static void replies(void) {
    unsigned k, flags;
    for (k = ECCH_SUBACK; k <= ECCH_UNSUBACK; k += 2) {
        const uint8_t first = (uint8_t)(k << 4);
        const uint8_t listed = k == ECCH_SUBACK ? ECCH_SUBACK_SUCCESS_EXACTLY_ONCE : ECCH_UNSUBACK_NO_SUBSCRIPTION_EXISTED;
        const uint8_t unlisted = k == ECCH_SUBACK ? ECCH_UNSUBACK_NO_SUBSCRIPTION_EXISTED : ECCH_SUBACK_SUCCESS_EXACTLY_ONCE;
        for (flags = 0; flags < 16; flags++) CHECK(reads(BYTES((uint8_t)(first | flags), 0x04, 0x00, 0x00, 0x00, 0x00), FREE) == 0 && rec[ECCH_KIND] == k && rec[ECCH_TAKEN] == 6);
        OTHERS(ECCH_REASONS_START, ECCH_REASONS_LEN);
        CHECK(reads(BYTES(first, 0x06, 0x12, 0x34, 0x00, listed, 0x00, 0x80, 0x99), 1, 8) == 0 && rec[ECCH_KIND] == k && rec[ECCH_PKID] == 0x1234 && rec[ECCH_TAKEN] == 8);
        CHECK(rec[ECCH_REASONS_START] == 5 && rec[ECCH_REASONS_LEN] == 3);
        OTHERS(ECCH_PKID, ECCH_REASONS_START, ECCH_REASONS_LEN);
        CHECK(reads(BYTES(first, 0x0E, 0x00, 0x0A, 0x0A, 31, 0x00, 0x01, 'n', 38, 0x00, 0x00, 0x00, 0x01, 'v', listed), FREE) == 0 && rec[ECCH_TAKEN] == 16);
        CHECK(rec[ECCH_REASONS_START] == 15 && rec[ECCH_REASONS_LEN] == 1 && rec[ECCH_BLOCK_START] == 5 && rec[ECCH_BLOCK_LEN] == 10);
        CHECK(rec[ECCH_REASON_STRING] == 1 && rec[ECCH_REASON_STRING_START] == 8 && rec[ECCH_REASON_STRING_LEN] == 1);
        OTHERS(ECCH_PKID, ECCH_BLOCK, ECCH_BLOCK_START, ECCH_BLOCK_LEN, ECCH_REASON_STRING, ECCH_REASON_STRING_START, ECCH_REASON_STRING_LEN, ECCH_REASONS_START, ECCH_REASONS_LEN);
        refused(BYTES(first, 0x02, 0x00, 0x01), FREE, ECCH_MALFORMED_PACKET, 0, 0, 4);
        refused(BYTES(first, 0x03, 0x00, 0x01, 0x00), FREE, ECCH_EMPTY_SUBSCRIPTION, 0, 0, 5);
        refused(BYTES(first, 0x05, 0x00, 0x01, 0x00, listed, unlisted), FREE, ECCH_INVALID_REASON, unlisted, 0, 7);
        refused(BYTES(first, 0x04, 0x00, 0x01, 0x02, 0x00), FREE, ECCH_BOUNDARY_CROSSED, 2, 0, 6);
        refused(BYTES(first, 0x05, 0x00, 0x01, 0x01, 11, 0x00), FREE, ECCH_INVALID_PROPERTY_TYPE, 11, 0, 7);
    }
}

/* Unsubscribe: flags, identifier 0, the topics, the properties, and what is refused. */
static void unsubscribes(void) {
    unsigned flags;
    for (flags = 0; flags < 16; flags++) CHECK(reads(BYTES((uint8_t)(0xA0 | flags), 0x05, 0x00, 0x00, 0x00, 0x00, 0x00), FREE) == 0 && rec[ECCH_KIND] == ECCH_UNSUBSCRIBE && rec[ECCH_TAKEN] == 7);
    OTHERS(ECCH_TOPICS_START, ECCH_TOPICS_LEN);
    CHECK(reads(BYTES(0xA2, 0x09, 0x12, 0x34, 0x00, 0x00, 0x02, 'a', '#', 0x00, 0x00, 0x99), 1, 11) == 0 && rec[ECCH_KIND] == ECCH_UNSUBSCRIBE && rec[ECCH_TAKEN] == 11);
    CHECK(rec[ECCH_PKID] == 0x1234 && rec[ECCH_TOPICS_START] == 5 && rec[ECCH_TOPICS_LEN] == 6);
    OTHERS(ECCH_PKID, ECCH_TOPICS_START, ECCH_TOPICS_LEN);
    CHECK(reads(BYTES(0xA2, 0x0B, 0x00, 0x07, 0x05, 38, 0x00, 0x00, 0x00, 0x00, 0x00, 0x01, 'a'), FREE) == 0);
    CHECK(rec[ECCH_TOPICS_START] == 10 && rec[ECCH_TOPICS_LEN] == 3 && rec[ECCH_BLOCK] == 1 && rec[ECCH_BLOCK_START] == 5 && rec[ECCH_BLOCK_LEN] == 5);
    OTHERS(ECCH_PKID, ECCH_BLOCK, ECCH_BLOCK_START, ECCH_BLOCK_LEN, ECCH_TOPICS_START, ECCH_TOPICS_LEN);
    refused(BYTES(0xA2, 0x02, 0x00, 0x01), FREE, ECCH_MALFORMED_PACKET, 0, 0, 4);
    refused(BYTES(0xA2, 0x03, 0x00, 0x01, 0x00), FREE, ECCH_EMPTY_SUBSCRIPTION, 0, 0, 5);
    refused(BYTES(0xA2, 0x04, 0x00, 0x01, 0x00, 0x00), FREE, ECCH_MALFORMED_PACKET, 0, 0, 6);
    refused(BYTES(0xA2, 0x06, 0x00, 0x01, 0x00, 0x00, 0x02, 'a'), FREE, ECCH_BOUNDARY_CROSSED, 2, 0, 8);
    refused(BYTES(0xA2, 0x06, 0x00, 0x01, 0x00, 0x00, 0x01, 0xFF), FREE, ECCH_TOPIC_NOT_UTF8, 0, 0, 8);
    refused(BYTES(0xA2, 0x09, 0x00, 0x01, 0x03, 31, 0x00, 0x00, 0x00, 0x01, 'a'), FREE, ECCH_INVALID_PROPERTY_TYPE, 31, 0, 11);
    refused(BYTES(0xA2, 0x08, 0x00, 0x01, 0x02, 11, 0x05, 0x00, 0x01, 'a'), FREE, ECCH_INVALID_PROPERTY_TYPE, 11, 0, 10);
}

static void items(void) {
    static const uint8_t three[] = {0x30, 0x0B, 0x00, 0x01, 'a', 0x06, 0x0B, 0x01, 0x0B, 0x02, 0x0B, 0x03, 0x07};
    static const uint8_t user[] = {0x30, 0x12, 0x00, 0x01, 'a', 0x0D, 38, 0x00, 0x01, 'k', 0x00, 0x02, 'v', 'w', 38, 0x00, 0x00, 0x00, 0x00, 0x07};
    static const uint8_t subscribe[] = {0x82, 0x0B, 0x00, 0x01, 0x00, 0x00, 0x01, 'a', 0x01, 0x00, 0x01, 'b', 0x2E};
    static const uint8_t suback[] = {0x90, 0x06, 0x00, 0x01, 0x00, 0x02, 0xA2, 0x00};
    static const uint8_t unsubscribe[] = {0xA2, 0x0A, 0x00, 0x01, 0x00, 0x00, 0x02, 'a', '#', 0x00, 0x01, 'b'};
    uint64_t item[ECCH_FILTER_LEN + 1];
    uint64_t n;

    CHECK(reads(three, sizeof three, FREE) == 0 && rec[ECCH_TAKEN] == 13 && rec[ECCH_PAYLOAD_START] == 12 && rec[ECCH_PAYLOAD_LEN] == 1);
    for (n = 0; n < 3; n++) CHECK(ecch_subscription_identifier(three, sizeof three, rec[ECCH_BLOCK_START], rec[ECCH_BLOCK_LEN], n, item, ECCH_IDENTIFIER_LEN) == 0 && item[ECCH_NUMBER] == n + 1);
    CHECK(ecch_subscription_identifier(three, sizeof three, rec[ECCH_BLOCK_START], rec[ECCH_BLOCK_LEN], 3, item, ECCH_IDENTIFIER_LEN) == ECCH_NO_ITEM && item[ECCH_NUMBER] == 0);
    CHECK(ecch_subscription_identifier(three, sizeof three, 6, 5, 0, item, ECCH_IDENTIFIER_LEN) == ECCH_NO_ITEM);
    CHECK(ecch_subscription_identifier(three, sizeof three, SIZE_MAX, 6, 0, item, ECCH_IDENTIFIER_LEN) == ECCH_NO_ITEM);

    CHECK(reads(user, sizeof user, FREE) == 0);
    CHECK(ecch_user_property(user, sizeof user, ECCH_PUBLISH, rec[ECCH_BLOCK_START], rec[ECCH_BLOCK_LEN], 0, item, ECCH_USER_LEN) == 0);
    CHECK(item[ECCH_KEY_START] == 9 && item[ECCH_KEY_LEN] == 1 && item[ECCH_ITEM_VALUE_START] == 12 && item[ECCH_ITEM_VALUE_LEN] == 2);
    CHECK(ecch_user_property(user, sizeof user, ECCH_PUBLISH, rec[ECCH_BLOCK_START], rec[ECCH_BLOCK_LEN], 1, item, ECCH_USER_LEN) == 0);
    CHECK(item[ECCH_KEY_START] == 17 && item[ECCH_KEY_LEN] == 0 && item[ECCH_ITEM_VALUE_START] == 19 && item[ECCH_ITEM_VALUE_LEN] == 0);
    CHECK(ecch_user_property(user, sizeof user, ECCH_PUBLISH, rec[ECCH_BLOCK_START], rec[ECCH_BLOCK_LEN], 2, item, ECCH_USER_LEN) == ECCH_NO_ITEM && item[ECCH_KEY_START] == 0);
    for (n = 0; n < 256; n++) {
        const uint32_t given = ecch_user_property(user, sizeof user, (uint8_t)n, rec[ECCH_BLOCK_START], rec[ECCH_BLOCK_LEN], 0, item, ECCH_USER_LEN);
        CHECK(given == (n >= ECCH_PUBLISH && n <= ECCH_UNSUBACK ? 0 : ECCH_NO_ITEM) && item[ECCH_KEY_START] == (given ? 0 : 9));
    }
    /* Rows: 31 of the acknowledgements and the replies, 11 of Publish and Subscribe, 38 alone of Unsubscribe. */
    for (n = ECCH_PUBLISH; n <= ECCH_UNSUBACK; n++) {
        const int named = n != ECCH_PUBLISH && n != ECCH_SUBSCRIBE && n != ECCH_UNSUBSCRIBE;
        CHECK((ecch_user_property(BYTES(31, 0, 0, 38, 0, 0, 0, 0), (uint8_t)n, 0, 8, 0, item, ECCH_USER_LEN) == 0) == named);
        CHECK((ecch_user_property(BYTES(11, 1, 38, 0, 0, 0, 0), (uint8_t)n, 0, 7, 0, item, ECCH_USER_LEN) == 0) == (n == ECCH_PUBLISH || n == ECCH_SUBSCRIBE));
        CHECK(ecch_user_property(BYTES(31, 0, 0, 38, 0, 0, 0, 0, 31, 0, 0), (uint8_t)n, 0, 11, 0, item, ECCH_USER_LEN) == ECCH_NO_ITEM);
        CHECK(ecch_user_property(BYTES(11, 0, 38, 0, 0, 0, 0), (uint8_t)n, 0, 7, 0, item, ECCH_USER_LEN) == ECCH_NO_ITEM);
        CHECK(ecch_user_property(BYTES(38, 0, 1, 0, 0, 0), (uint8_t)n, 0, 6, 0, item, ECCH_USER_LEN) == ECCH_NO_ITEM);
    }
    CHECK(ecch_subscription_identifier(BYTES(11, 5, 11, 0), 0, 4, 0, item, ECCH_IDENTIFIER_LEN) == ECCH_NO_ITEM);
    CHECK(ecch_subscription_identifier(BYTES(11, 0x85, 0), 0, 3, 0, item, ECCH_IDENTIFIER_LEN) == ECCH_NO_ITEM);

    CHECK(reads(subscribe, sizeof subscribe, FREE) == 0);
    item[ECCH_FILTER_LEN] = 77;
    CHECK(ecch_filter(subscribe, sizeof subscribe, rec[ECCH_FILTERS_START], rec[ECCH_FILTERS_LEN], 1, item, ECCH_FILTER_LEN) == 0);
    CHECK(item[ECCH_PATH_START] == 11 && item[ECCH_PATH_LEN] == 1 && item[ECCH_FILTER_QOS] == 2 && item[ECCH_NO_LOCAL] == 1 && item[ECCH_PRESERVE_RETAIN] == 1 && item[ECCH_FORWARD_RULE] == 2);
    CHECK(ecch_filter(subscribe, sizeof subscribe, rec[ECCH_FILTERS_START], rec[ECCH_FILTERS_LEN], 2, item, ECCH_FILTER_LEN) == ECCH_NO_ITEM && item[ECCH_FILTER_LEN] == 77);

    /* Reasons, in each kind's list; topics. */
    CHECK(reads(suback, sizeof suback, FREE) == 0);
    item[ECCH_REASON_NUMBERS] = 77;
    for (n = 0; n < 3; n++) {
        CHECK(ecch_reason(suback, sizeof suback, ECCH_SUBACK, rec[ECCH_REASONS_START], rec[ECCH_REASONS_LEN], n, item, ECCH_REASON_NUMBERS) == 0 && item[ECCH_REASON_ITEM] == suback[5 + n]);
    }
    CHECK(ecch_reason(suback, sizeof suback, ECCH_SUBACK, rec[ECCH_REASONS_START], rec[ECCH_REASONS_LEN], 3, item, ECCH_REASON_NUMBERS) == ECCH_NO_ITEM && item[ECCH_REASON_ITEM] == 0);
    CHECK(ecch_reason(suback, sizeof suback, ECCH_SUBACK, 5, 0, 0, item, ECCH_REASON_NUMBERS) == ECCH_NO_ITEM);
    CHECK(ecch_reason(suback, sizeof suback, ECCH_SUBACK, 6, 3, 0, item, ECCH_REASON_NUMBERS) == ECCH_NO_ITEM);
    CHECK(ecch_reason(suback, sizeof suback, ECCH_SUBACK, SIZE_MAX, 2, 0, item, ECCH_REASON_NUMBERS) == ECCH_NO_ITEM);
    CHECK(item[ECCH_REASON_NUMBERS] == 77);
    for (n = 0; n < 256; n++) {
        const uint32_t given = ecch_reason(BYTES(0x00, 0x87), (uint8_t)n, 0, 2, 1, item, ECCH_REASON_NUMBERS);
        CHECK(given == (n == ECCH_SUBACK || n == ECCH_UNSUBACK ? 0 : ECCH_NO_ITEM) && item[ECCH_REASON_ITEM] == (given ? 0 : 0x87));
    }
    CHECK(ecch_reason(BYTES(0x00, 0x02), ECCH_UNSUBACK, 0, 2, 0, item, ECCH_REASON_NUMBERS) == ECCH_NO_ITEM);
    CHECK(ecch_reason(BYTES(0x00, 0x11), ECCH_SUBACK, 0, 2, 0, item, ECCH_REASON_NUMBERS) == ECCH_NO_ITEM);

    CHECK(reads(unsubscribe, sizeof unsubscribe, FREE) == 0);
    item[ECCH_TOPIC_NUMBERS] = 77;
    CHECK(ecch_topic(unsubscribe, sizeof unsubscribe, rec[ECCH_TOPICS_START], rec[ECCH_TOPICS_LEN], 0, item, ECCH_TOPIC_NUMBERS) == 0);
    CHECK(item[ECCH_TOPIC_ITEM_START] == 7 && item[ECCH_TOPIC_ITEM_LEN] == 2);
    CHECK(ecch_topic(unsubscribe, sizeof unsubscribe, rec[ECCH_TOPICS_START], rec[ECCH_TOPICS_LEN], 1, item, ECCH_TOPIC_NUMBERS) == 0);
    CHECK(item[ECCH_TOPIC_ITEM_START] == 11 && item[ECCH_TOPIC_ITEM_LEN] == 1);
    CHECK(ecch_topic(unsubscribe, sizeof unsubscribe, rec[ECCH_TOPICS_START], rec[ECCH_TOPICS_LEN], 2, item, ECCH_TOPIC_NUMBERS) == ECCH_NO_ITEM);
    CHECK(item[ECCH_TOPIC_ITEM_START] == 0 && item[ECCH_TOPIC_ITEM_LEN] == 0 && item[ECCH_TOPIC_NUMBERS] == 77);
    CHECK(ecch_topic(unsubscribe, sizeof unsubscribe, 5, 0, 0, item, ECCH_TOPIC_NUMBERS) == ECCH_NO_ITEM);
    CHECK(ecch_topic(unsubscribe, sizeof unsubscribe, 5, 6, 0, item, ECCH_TOPIC_NUMBERS) == ECCH_NO_ITEM);
    CHECK(ecch_topic(unsubscribe, sizeof unsubscribe, SIZE_MAX, 7, 0, item, ECCH_TOPIC_NUMBERS) == ECCH_NO_ITEM);
    CHECK(ecch_topic(BYTES(0, 1, 'a', 0, 1, 0), 0, 6, 0, item, ECCH_TOPIC_NUMBERS) == ECCH_NO_ITEM);

    CHECK(ecch_part(three, sizeof three, 4, 1) == 0 && ecch_part(three, sizeof three, 12, 1) == 0 && ecch_part(three, sizeof three, 12, 2) == ECCH_NO_ITEM);
    /* an empty part, the one at the end too, is told from a place outside */
    CHECK(ecch_part(three, sizeof three, 0, 0) == 0 && ecch_part(three, sizeof three, 13, 0) == 0 && ecch_part(three, sizeof three, 14, 0) == ECCH_NO_ITEM);
    CHECK(ecch_part(three, sizeof three, SIZE_MAX, 2) == ECCH_NO_ITEM && ecch_part(three, sizeof three, SIZE_MAX, 0) == ECCH_NO_ITEM && ecch_part(NONE, 0, 0) == 0);
}

static uint64_t walk[ECCH_PROPERTY_NUMBERS + 1];

/* What is stored of an item at an index: the index after it (or the refusal's value), then six numbers; the array's rest stays. */
static void walked(uint32_t given, uint32_t number, uint64_t next, uint64_t a, uint64_t b, uint64_t c, uint64_t d, uint64_t e, uint64_t f) {
    CHECK(given == number);
    CHECK(walk[0] == next && walk[1] == a && walk[2] == b && walk[3] == c && walk[4] == d && walk[5] == e && walk[6] == f);
    CHECK(walk[ECCH_PROPERTY_NUMBERS] == 0xEEEEEEEEEEEEEEEEu);
    memset(walk, 0xEE, sizeof walk);
}

static void walks(void) {
    /* The block of a Publish, every form of value; then those of the other kinds. */
    static const uint8_t block[] = {1,   1,    2,    0x01, 0x02, 0x03, 0x04, 35, 0x05, 0x06, 8,   0x00, 0x01, 'r',  9,    0x00, 0x02, 0xFE,
                                    0xFF, 38,   0x00, 0x01, 'k',  0x00, 0x02, 'v', 'w',  11,   0x80, 0x01, 3,    0x00, 0x00};
    static const uint8_t filters[] = {0x99, 0x00, 0x01, 'a', 0x01, 0x00, 0x00, 0x2E};
    static const uint8_t crossing[] = {0x30, 0x0B, 0x00, 0x01, 'a', 0x05, 38, 0x00, 0x00, 0x00, 0x00, 11, 0x07};
    static const uint8_t named[] = {31, 0x00, 0x01, 'n', 31, 0x00, 0x01, 'm'};
    static const uint8_t topics[] = {0x99, 0x00, 0x02, 'a', '#', 0x00, 0x00};
    unsigned i;
    memset(walk, 0xEE, sizeof walk);
#define PROPERTY(stream, len, kind, at) ecch_property(stream, len, kind, at, len, walk, ECCH_PROPERTY_NUMBERS)
    walked(PROPERTY(block, sizeof block, 3, 0), 0, 2, 1, 1, 0, 0, 0, 0);
    walked(PROPERTY(block, sizeof block, 3, 2), 0, 7, 2, 0x01020304, 0, 0, 0, 0);
    walked(PROPERTY(block, sizeof block, 3, 7), 0, 10, 35, 0x0506, 0, 0, 0, 0);
    walked(PROPERTY(block, sizeof block, 3, 10), 0, 14, 8, 0, 13, 1, 0, 0);
    walked(PROPERTY(block, sizeof block, 3, 14), 0, 19, 9, 0, 17, 2, 0, 0);
    walked(PROPERTY(block, sizeof block, 3, 19), 0, 27, 38, 0, 22, 1, 25, 2);
    walked(PROPERTY(block, sizeof block, 3, 27), 0, 30, 11, 128, 0, 0, 0, 0);
    walked(PROPERTY(block, sizeof block, 3, 30), 0, 33, 3, 0, 33, 0, 0, 0);
    walked(PROPERTY(block, sizeof block, 8, 27), 0, 30, 11, 128, 0, 0, 0, 0);
    for (i = ECCH_PUBLISH; i <= ECCH_UNSUBACK; i++) walked(PROPERTY(block, sizeof block, (uint8_t)i, 19), 0, 27, 38, 0, 22, 1, 25, 2);
    for (i = 0; i < 256; i++) {
        if (i < ECCH_PUBLISH || i > ECCH_UNSUBACK) walked(PROPERTY(block, sizeof block, (uint8_t)i, 19), ECCH_NO_ITEM, 0, 0, 0, 0, 0, 0, 0);
    }
    for (i = ECCH_PUBACK; i <= ECCH_UNSUBACK; i++) {
        if (i == ECCH_SUBSCRIBE || i == ECCH_UNSUBSCRIBE) walked(PROPERTY(named, sizeof named, (uint8_t)i, 0), ECCH_INVALID_PROPERTY_TYPE, 31, 0, 0, 0, 0, 0, 0);
        else walked(PROPERTY(named, sizeof named, (uint8_t)i, 0), 0, 4, 31, 0, 3, 1, 0, 0);
    }
    /* An index has no memory: no 22. A number 0, a number in more bytes than it needs, and U+0000 are refused. */
    walked(PROPERTY(named, sizeof named, 4, 4), 0, 8, 31, 0, 7, 1, 0, 0);
    walked(ecch_property(BYTES(11, 0x00), 3, 0, 2, walk, ECCH_PROPERTY_NUMBERS), ECCH_SUBSCRIPTION_ID_ZERO, 0, 0, 0, 0, 0, 0, 0);
    walked(ecch_property(BYTES(11, 0x00), 8, 0, 2, walk, ECCH_PROPERTY_NUMBERS), ECCH_SUBSCRIPTION_ID_ZERO, 0, 0, 0, 0, 0, 0, 0);
    walked(ecch_property(BYTES(11, 0x81, 0x00), 3, 0, 3, walk, ECCH_PROPERTY_NUMBERS), ECCH_MALFORMED_REMAINING_LENGTH, 0, 0, 0, 0, 0, 0, 0);
    walked(ecch_property(BYTES(31, 0x00, 0x01, 0x00), 7, 0, 4, walk, ECCH_PROPERTY_NUMBERS), ECCH_TOPIC_NOT_UTF8, 0, 0, 0, 0, 0, 0, 0);
    /* Refusals: past the end, another row, another kind, cut, crossed, not UTF-8, a length too long. */
    walked(PROPERTY(block, sizeof block, 3, 33), ECCH_MALFORMED_PACKET, 0, 0, 0, 0, 0, 0, 0);
    walked(PROPERTY(block, sizeof block, 3, SIZE_MAX), ECCH_MALFORMED_PACKET, 0, 0, 0, 0, 0, 0, 0);
    walked(PROPERTY((const uint8_t *)ECCH_NOTHING, 0, 3, 0), ECCH_MALFORMED_PACKET, 0, 0, 0, 0, 0, 0, 0);
    walked(PROPERTY(block, sizeof block, 4, 27), ECCH_INVALID_PROPERTY_TYPE, 11, 0, 0, 0, 0, 0, 0);
    walked(PROPERTY(block, sizeof block, 8, 0), ECCH_INVALID_PROPERTY_TYPE, 1, 0, 0, 0, 0, 0, 0);
    walked(PROPERTY(block, sizeof block, 12, 0), ECCH_NO_ITEM, 0, 0, 0, 0, 0, 0, 0);
    walked(PROPERTY(block, sizeof block, 255, SIZE_MAX), ECCH_NO_ITEM, 0, 0, 0, 0, 0, 0, 0);
    walked(PROPERTY(block, 26, 3, 19), ECCH_BOUNDARY_CROSSED, 2, 0, 0, 0, 0, 0, 0);
    walked(PROPERTY(block, 24, 3, 19), ECCH_MALFORMED_PACKET, 0, 0, 0, 0, 0, 0, 0);
    walked(ecch_property(BYTES(8, 0x00, 0x01, 0xFF), 3, 0, 4, walk, ECCH_PROPERTY_NUMBERS), ECCH_TOPIC_NOT_UTF8, 0, 0, 0, 0, 0, 0, 0);
    walked(ecch_property(BYTES(11, 0xFF, 0xFF, 0xFF, 0xFF), 3, 0, 5, walk, ECCH_PROPERTY_NUMBERS), ECCH_MALFORMED_REMAINING_LENGTH, 0, 0, 0, 0, 0, 0, 0);
#define FILTER(stream, len, at) ecch_next_filter(stream, len, at, len, walk, ECCH_NEXT_FILTER_NUMBERS)
    walked(FILTER(filters, sizeof filters, 1), 0, 5, 3, 1, 1, 0, 0, 0);
    walked(FILTER(filters, sizeof filters, 5), 0, 8, 7, 0, 2, 1, 1, 2);
    walked(FILTER(filters, sizeof filters, 8), ECCH_MALFORMED_PACKET, 0, 0, 0, 0, 0, 0, 0);
    walked(FILTER(filters, sizeof filters, SIZE_MAX), ECCH_MALFORMED_PACKET, 0, 0, 0, 0, 0, 0, 0);
    walked(FILTER(filters, 3, 1), ECCH_BOUNDARY_CROSSED, 1, 0, 0, 0, 0, 0, 0);
    walked(ecch_next_filter(BYTES(0x00, 0x00, 0x33), 0, 3, walk, ECCH_NEXT_FILTER_NUMBERS), ECCH_INVALID_RETAIN_FORWARD_RULE, 3, 0, 0, 0, 0, 0, 0);
    walked(ecch_next_filter(BYTES(0x00, 0x00, 0x03), 0, 3, walk, ECCH_NEXT_FILTER_NUMBERS), ECCH_INVALID_QOS, 3, 0, 0, 0, 0, 0, 0);
    walked(ecch_next_filter(BYTES(0x00, 0x01, 0x00, 0x00), 0, 4, walk, ECCH_NEXT_FILTER_NUMBERS), ECCH_TOPIC_NOT_UTF8, 0, 0, 0, 0, 0, 0, 0);
#define TOPIC(stream, len, at) ecch_next_topic(stream, len, at, len, walk, ECCH_NEXT_TOPIC_NUMBERS)
    walked(TOPIC(topics, sizeof topics, 1), 0, 5, 3, 2, 0, 0, 0, 0);
    walked(TOPIC(topics, sizeof topics, 5), 0, 7, 7, 0, 0, 0, 0, 0);
    walked(TOPIC(topics, sizeof topics, 7), ECCH_MALFORMED_PACKET, 0, 0, 0, 0, 0, 0, 0);
    walked(TOPIC(topics, sizeof topics, SIZE_MAX), ECCH_MALFORMED_PACKET, 0, 0, 0, 0, 0, 0, 0);
    walked(TOPIC((const uint8_t *)ECCH_NOTHING, 0, 0), ECCH_MALFORMED_PACKET, 0, 0, 0, 0, 0, 0, 0);
    walked(TOPIC(topics, 2, 1), ECCH_MALFORMED_PACKET, 0, 0, 0, 0, 0, 0, 0);
    walked(TOPIC(topics, 4, 1), ECCH_BOUNDARY_CROSSED, 2, 0, 0, 0, 0, 0, 0);
    walked(ecch_next_topic(BYTES(0x00, 0x01, 0xFF), 0, 3, walk, ECCH_NEXT_TOPIC_NUMBERS), ECCH_TOPIC_NOT_UTF8, 0, 0, 0, 0, 0, 0, 0);
    walked(ecch_next_topic(BYTES(0x00, 0x01, 0x00), 0, 3, walk, ECCH_NEXT_TOPIC_NUMBERS), ECCH_TOPIC_NOT_UTF8, 0, 0, 0, 0, 0, 0, 0);
    /* The whole stream is handed over, and the end of the block: what stands behind it is no property (D2); an end beyond the stream is 21. */
    walked(ecch_property(crossing, sizeof crossing, 3, 6, 11, walk, ECCH_PROPERTY_NUMBERS), 0, 11, 38, 0, 9, 0, 11, 0);
    walked(ecch_property(crossing, sizeof crossing, 3, 11, 11, walk, ECCH_PROPERTY_NUMBERS), ECCH_MALFORMED_PACKET, 0, 0, 0, 0, 0, 0, 0);
    walked(ecch_property(crossing, sizeof crossing, 3, 12, 11, walk, ECCH_PROPERTY_NUMBERS), ECCH_MALFORMED_PACKET, 0, 0, 0, 0, 0, 0, 0);
    walked(ecch_property(crossing, sizeof crossing, 3, 6, 10, walk, ECCH_PROPERTY_NUMBERS), ECCH_MALFORMED_PACKET, 0, 0, 0, 0, 0, 0, 0);
    walked(ecch_property(crossing, sizeof crossing, 3, 6, 14, walk, ECCH_PROPERTY_NUMBERS), ECCH_NO_ITEM, 0, 0, 0, 0, 0, 0, 0);
    walked(ecch_property(crossing, sizeof crossing, 3, 6, SIZE_MAX, walk, ECCH_PROPERTY_NUMBERS), ECCH_NO_ITEM, 0, 0, 0, 0, 0, 0, 0);
    walked(ecch_next_filter(filters, sizeof filters, 1, 5, walk, ECCH_NEXT_FILTER_NUMBERS), 0, 5, 3, 1, 1, 0, 0, 0);
    walked(ecch_next_filter(filters, sizeof filters, 5, 5, walk, ECCH_NEXT_FILTER_NUMBERS), ECCH_MALFORMED_PACKET, 0, 0, 0, 0, 0, 0, 0);
    walked(ecch_next_filter(filters, sizeof filters, 1, 3, walk, ECCH_NEXT_FILTER_NUMBERS), ECCH_BOUNDARY_CROSSED, 1, 0, 0, 0, 0, 0, 0);
    walked(ecch_next_filter(filters, sizeof filters, 1, sizeof filters + 1, walk, ECCH_NEXT_FILTER_NUMBERS), ECCH_NO_ITEM, 0, 0, 0, 0, 0, 0, 0);
    walked(ecch_next_topic(topics, sizeof topics, 1, 5, walk, ECCH_NEXT_TOPIC_NUMBERS), 0, 5, 3, 2, 0, 0, 0, 0);
    walked(ecch_next_topic(topics, sizeof topics, 5, 5, walk, ECCH_NEXT_TOPIC_NUMBERS), ECCH_MALFORMED_PACKET, 0, 0, 0, 0, 0, 0, 0);
    walked(ecch_next_topic(topics, sizeof topics, 1, 4, walk, ECCH_NEXT_TOPIC_NUMBERS), ECCH_BOUNDARY_CROSSED, 2, 0, 0, 0, 0, 0, 0);
    walked(ecch_next_topic(topics, sizeof topics, 1, sizeof topics + 1, walk, ECCH_NEXT_TOPIC_NUMBERS), ECCH_NO_ITEM, 0, 0, 0, 0, 0, 0, 0);
    /* A shorter array takes what fits. */
    CHECK(ecch_next_topic(topics, sizeof topics, 1, sizeof topics, walk, 3) == 0 && walk[0] == 5 && walk[1] == 3 && walk[2] == 2 && walk[3] == 0xEEEEEEEEEEEEEEEEu);
    memset(walk, 0xEE, sizeof walk);
    CHECK(ecch_property(block, sizeof block, 3, 2, sizeof block, walk, 1) == 0 && walk[0] == 7 && walk[1] == 0xEEEEEEEEEEEEEEEEu);
    CHECK(ecch_next_filter(filters, sizeof filters, 1, sizeof filters, walk, 2) == 0 && walk[0] == 5 && walk[1] == 3 && walk[2] == 0xEEEEEEEEEEEEEEEEu);
}

static void names(void) {
    static const char *const all[] = {
        "", "InsufficientBytes", "MalformedRemainingLength", "PayloadSizeLimitExceeded", "InvalidPacketType", "PayloadRequired", "KindNotCarried", "MalformedPacket",
        "BoundaryCrossed", "TopicNotUtf8", "InvalidPropertyType", "InvalidQoS", "PacketIdZero", "EmptySubscription", "InvalidRetainForwardRule", "InvalidReason",
        "OutgoingPacketTooLarge", "PayloadTooLong", "StringTooLong", "NoRoom", "ListMismatch", "NoItem", "DuplicateProperty", "SubscriptionIdZero",
        "AliasTableBad", "AliasInvalid", "TopicMissing", "AliasUnknown", "AliasNoRoom", "InFlightFull", "NoClaim", "NotWaiting", "BadArea", "JournalEmpty", "JournalEnded",
        "BadBuffer", "FrameTooLong", "FilterTableFull", "NotSubscribe", "BadTable", ""};
    uint8_t name[25];
    uint32_t i;
    for (i = 0; i < sizeof all / sizeof *all; i++) {
        memset(name, 0, sizeof name);
        CHECK(ecch_name(i, name, sizeof name) == strlen(all[i]) && strcmp((const char *)name, all[i]) == 0);
    }
    memset(name, 0, sizeof name);
    CHECK(ecch_name(UINT32_MAX, name, sizeof name) == 0 && name[0] == 0);
    CHECK(ecch_name(ECCH_INSUFFICIENT_BYTES, name, 3) == 17 && strcmp((const char *)name, "Ins") == 0);
}

static void answered(uint32_t given, uint32_t number, uint64_t size, uint64_t first, uint64_t second) {
    CHECK(given == number);
    CHECK(ans[ECCH_SIZE] == size && ans[ECCH_VALUE_1] == first && ans[ECCH_VALUE_2] == second && ans[ECCH_ANSWER_LEN] == 0xEEEEEEEEEEEEEEEEu);
    memset(ans, 0xEE, sizeof ans);
}

/* The a/b record. */
static uint32_t a_b(uint8_t qos, uint16_t pkid, uint8_t limited, size_t limit, uint8_t *out, size_t out_len) {
    return ecch_publish_write(0, qos, 0, pkid, BYTES('a', '/', 'b'), 0, 0, 0, 0, 0, 0, 0, 0, NONE, 0, NONE, NONE, NO_LENGTHS, NO_NUMBERS, 0, NONE, BYTES('h', 'i'), limited, limit, out, out_len,
                              ans, ECCH_ANSWER_LEN);
}

static uint8_t out[64], before[64];
/* A string that is too long by one. */
static const uint8_t huge[65536];
static const size_t huge_length[] = {sizeof huge}, huge_pair[] = {sizeof huge, 0};
static const size_t two_ones[] = {1, 1};
#define TWO_ONES two_ones, 2
#define FRESH memcpy(out, before, sizeof out)
#define WROTE(b) wrote(b, sizeof(b))
#define KEPT CHECK(memcmp(out, before, sizeof out) == 0)

/* These bytes, and behind them what stood there. */
static void wrote(const uint8_t *bytes, size_t len) {
    CHECK(memcmp(out, bytes, len) == 0 && memcmp(out + len, before + len, sizeof out - len) == 0);
}

static void writes(void) {
    static const uint8_t plain[] = {0x30, 0x08, 0x00, 0x03, 'a', '/', 'b', 0x00, 'h', 'i'};
    static const uint8_t whole[] = {0x3D, 40,   0x00, 0x01, 't',  0x12, 0x34, 34, 1,    1,    2,    0x01, 0x02, 0x03, 0x04, 35,   0x05, 0x06, 8,   0x00, 0x01,
                                    'r',  9,    0x00, 0x02, 0xFE, 0xFF, 38,   0x00, 0x01, 'k',  0x00, 0x01, 'v',  11,   0x01, 11,   0x02, 3,   0x00, 0x01, 'c'};
    static const uint8_t filters[] = {0x82, 0x11, 0x00, 0x07, 0x09, 11, 0x05, 38, 0x00, 0x01, 'k', 0x00, 0x01, 'v', 0x00, 0x02, 'a', 'b', 0x2E};
    static const size_t pair[] = {1, 1};
    static const size_t two[] = {2};
    static const uint32_t numbers[] = {1, 2};

    FRESH;
    answered(a_b(0, 0, 1, 9, out, sizeof out), ECCH_OUTGOING_PACKET_TOO_LARGE, 0, 10, 9);
    KEPT;
    answered(a_b(3, 0, 1, 9, out, sizeof out), ECCH_INVALID_QOS, 0, 3, 0);
    KEPT;
    answered(a_b(1, 0, FREE, out, sizeof out), ECCH_PACKET_ID_ZERO, 0, 0, 0);
    KEPT;
    answered(a_b(0, 0, FREE, out, 9), ECCH_NO_ROOM, 0, 10, 0);
    KEPT;
    answered(a_b(0, 0, 1, 10, out, sizeof out), 0, 10, 0, 0);
    WROTE(plain);
    CHECK(reads(out, sizeof out, FREE) == 0 && rec[ECCH_TAKEN] == 10);

    FRESH;
#define WHOLE 2, 2, 9, 0x1234, BYTES('t'), 1, 1, 1, 1, 0x01020304, 1, 0x0506, 1, BYTES('r'), 1, BYTES(0xFE, 0xFF), BYTES('k', 'v'), pair, 2, numbers, 2, 1, BYTES('c'), NONE
    answered(ecch_publish_size(WHOLE, ans, ECCH_ANSWER_LEN), 0, sizeof whole, 0, 0);
    answered(ecch_publish_write(WHOLE, FREE, out, sizeof out, ans, ECCH_ANSWER_LEN), 0, sizeof whole, 0, 0);
    WROTE(whole);

    FRESH;
#define ABSENT 0, 0, 0, 0, BYTES('t'), 0, 0, 0, 0, 0, 0, 0, 0, BYTES('r'), 0, NONE, NONE, NO_LENGTHS, NO_NUMBERS, 0, NONE, NONE
    answered(ecch_publish_size(ABSENT, ans, ECCH_ANSWER_LEN), ECCH_LIST_MISMATCH, 0, 0, 0);
    answered(ecch_publish_write(ABSENT, FREE, out, sizeof out, ans, ECCH_ANSWER_LEN), ECCH_LIST_MISMATCH, 0, 0, 0);
    KEPT;

    /* A QoS that is none comes after 20, whatever is not as it should be, and before all else; so for size. */
#define QOS_3(block, format_on, format, user, lengths) 0, 3, 0, 0, BYTES('t'), block, format_on, format, 0, 0, 0, 0, 0, NONE, 0, NONE, user, lengths, NO_NUMBERS, 0, NONE, NONE
    answered(ecch_publish_size(QOS_3(1, 0, 0, BYTES('k', 'v', 'w'), TWO_ONES), ans, ECCH_ANSWER_LEN), ECCH_LIST_MISMATCH, 0, 0, 0);
    answered(ecch_publish_write(QOS_3(1, 0, 0, BYTES('k', 'v', 'w'), TWO_ONES), 1, 0, out, 0, ans, ECCH_ANSWER_LEN), ECCH_LIST_MISMATCH, 0, 0, 0);
    answered(ecch_publish_size(QOS_3(0, 0, 7, NONE, NO_LENGTHS), ans, ECCH_ANSWER_LEN), ECCH_LIST_MISMATCH, 0, 0, 0);
    answered(ecch_publish_write(QOS_3(0, 1, 0, NONE, NO_LENGTHS), 1, 0, out, 0, ans, ECCH_ANSWER_LEN), ECCH_LIST_MISMATCH, 0, 0, 0);
    answered(ecch_publish_size(QOS_3(1, 0, 0, BYTES('k', 'v'), TWO_ONES), ans, ECCH_ANSWER_LEN), ECCH_INVALID_QOS, 0, 3, 0);
    answered(ecch_publish_write(QOS_3(1, 1, 7, BYTES('k', 0xFF), TWO_ONES), 1, 0, out, 0, ans, ECCH_ANSWER_LEN), ECCH_INVALID_QOS, 0, 3, 0);

    /* A number other than 0 for a value that is off is 20, with a block and without. */
#define NUMBERS(block, format_on, format, expiry_on, expiry, alias_on, alias) \
    0, 0, 0, 0, BYTES('t'), block, format_on, format, expiry_on, expiry, alias_on, alias, 0, NONE, 0, NONE, NONE, NO_LENGTHS, NO_NUMBERS, 0, NONE, NONE
#define OFF_NUMBER(...) \
    answered(ecch_publish_size(NUMBERS(__VA_ARGS__), ans, ECCH_ANSWER_LEN), ECCH_LIST_MISMATCH, 0, 0, 0); \
    answered(ecch_publish_write(NUMBERS(__VA_ARGS__), FREE, out, sizeof out, ans, ECCH_ANSWER_LEN), ECCH_LIST_MISMATCH, 0, 0, 0)
    OFF_NUMBER(1, 0, 7, 0, 0, 0, 0);
    OFF_NUMBER(1, 0, 0, 0, 0x80000000u, 0, 0);
    OFF_NUMBER(1, 0, 0, 0, 0, 0, 0x8000);
    OFF_NUMBER(0, 0, 1, 0, 0, 0, 0);
    OFF_NUMBER(0, 0, 0, 0, 1, 0, 0);
    OFF_NUMBER(0, 0, 0, 0, 0, 0, 1);
    OFF_NUMBER(0, 1, 0, 0, 0, 0, 0);
    answered(ecch_publish_size(NUMBERS(1, 1, 0, 1, 0, 1, 0), ans, ECCH_ANSWER_LEN), 0, 16, 0, 0);
    answered(ecch_subscribe_size(7, 1, 0, 5, NONE, NO_LENGTHS, BYTES('a', 'b'), two, 1, BYTES(0), ans, ECCH_ANSWER_LEN), ECCH_LIST_MISMATCH, 0, 0, 0);
    answered(ecch_subscribe_write(7, 0, 0, 0x80000000u, NONE, NO_LENGTHS, BYTES('a', 'b'), two, 1, BYTES(0), FREE, out, sizeof out, ans, ECCH_ANSWER_LEN), ECCH_LIST_MISMATCH, 0, 0, 0);
    KEPT;

#define FILTERS 7, 1, 1, 5, BYTES('k', 'v'), pair, 2, BYTES('a', 'b'), two, 1, BYTES(0xEE)
    answered(ecch_subscribe_size(FILTERS, ans, ECCH_ANSWER_LEN), 0, sizeof filters, 0, 0);
    answered(ecch_subscribe_write(FILTERS, FREE, out, sizeof out, ans, ECCH_ANSWER_LEN), 0, sizeof filters, 0, 0);
    WROTE(filters);

    FRESH;
    answered(ecch_subscribe_write(7, 0, 0, 0, NONE, NO_LENGTHS, NONE, NO_LENGTHS, NONE, FREE, out, sizeof out, ans, ECCH_ANSWER_LEN), ECCH_EMPTY_SUBSCRIPTION, 0, 0, 0);
    KEPT;

    FRESH;
    answered(ecch_ping_size(ans, ECCH_ANSWER_LEN), 0, 2, 0, 0);
    answered(ecch_pingreq_write(1, 1, out, sizeof out, ans, ECCH_ANSWER_LEN), ECCH_OUTGOING_PACKET_TOO_LARGE, 0, 2, 1);
    answered(ecch_pingresp_write(FREE, out, 1, ans, ECCH_ANSWER_LEN), ECCH_NO_ROOM, 0, 2, 0);
    KEPT;
    answered(ecch_pingreq_write(FREE, out, sizeof out, ans, ECCH_ANSWER_LEN), 0, 2, 0, 0);
    CHECK(out[0] == 0xC0 && out[1] == 0 && out[2] == before[2]);
    answered(ecch_pingresp_write(FREE, out, sizeof out, ans, ECCH_ANSWER_LEN), 0, 2, 0, 0);
    CHECK(out[0] == 0xD0 && out[1] == 0 && out[2] == before[2]);
}

/* What a written Publish of topic t refuses: a value each, or none. */
#define OFF 0, NONE
#define NUL 1, BYTES(0)
#define NO_USER NONE, NO_LENGTHS
static uint32_t strict(const uint32_t *ids, size_t n, uint8_t limited, size_t limit, size_t room) {
    return ecch_publish_write(0, 0, 0, 0, BYTES('t'), 1, 0, 0, 0, 0, 0, 0, OFF, OFF, NO_USER, ids, n, OFF, NONE, limited, limit, out, room, ans, ECCH_ANSWER_LEN);
}

static uint32_t strict_filter(uint8_t on, uint32_t id, const uint8_t *text, size_t len, const size_t *lengths, size_t n) {
    return ecch_subscribe_write(0, 1, on, id, NO_USER, text, len, lengths, n, BYTES(0), FREE, out, sizeof out, ans, ECCH_ANSWER_LEN);
}

/* Text with U+0000, and subscription identifiers that are 0 or too large: in their order, where 17 stands for them. */
static void strict_writes(void) {
    static const size_t one[] = {1}, key[] = {1, 0}, value[] = {0, 1};
    static const uint32_t ids[] = {5, 0, 268435456, 0};

    FRESH;
#define TEXTS(response, correlation, user, content) \
    ecch_publish_write(0, 0, 0, 0, BYTES(0), 1, 0, 0, 0, 0, 0, 0, response, correlation, user, NO_NUMBERS, content, NONE, FREE, out, sizeof out, ans, ECCH_ANSWER_LEN)
    answered(TEXTS(NUL, OFF, NO_USER, OFF), ECCH_TOPIC_NOT_UTF8, 0, 0, 0);
    answered(TEXTS(OFF, OFF, NO_USER, NUL), ECCH_TOPIC_NOT_UTF8, 0, 0, 0);
#define KEY BYTES(0), key, 2
#define VALUE BYTES(0), value, 2
    answered(TEXTS(OFF, OFF, KEY, OFF), ECCH_TOPIC_NOT_UTF8, 0, 0, 0);
    answered(TEXTS(OFF, OFF, VALUE, OFF), ECCH_TOPIC_NOT_UTF8, 0, 0, 0);
    KEPT;
    /* topic and correlation data are bytes */
    answered(TEXTS(OFF, NUL, NO_USER, OFF), 0, 10, 0, 0);
    CHECK(reads(out, 10, FREE) == 0 && rec[ECCH_CORRELATION_LEN] == 1 && rec[ECCH_TOPIC_LEN] == 1);

    FRESH;
    answered(strict(ids, 2, FREE, sizeof out), ECCH_SUBSCRIPTION_ID_ZERO, 0, 0, 0);
    answered(strict(ids + 1, 2, FREE, sizeof out), ECCH_SUBSCRIPTION_ID_ZERO, 0, 0, 0);
    answered(strict(ids + 2, 2, FREE, sizeof out), ECCH_PAYLOAD_TOO_LONG, 0, 0, 0);
    answered(strict(ids + 1, 1, FREE, 0), ECCH_SUBSCRIPTION_ID_ZERO, 0, 0, 0);
    answered(strict(ids + 1, 1, 1, 7, sizeof out), ECCH_OUTGOING_PACKET_TOO_LARGE, 0, 8, 7);
    KEPT;
    answered(ecch_publish_size(0, 0, 0, 0, BYTES('t'), 1, 0, 0, 0, 0, 0, 0, OFF, OFF, NO_USER, ids + 1, 1, OFF, NONE, ans, ECCH_ANSWER_LEN), 0, 8, 0, 0);
    answered(strict_filter(1, 0, BYTES('a'), one, 1), ECCH_SUBSCRIPTION_ID_ZERO, 0, 0, 0);
    answered(strict_filter(1, 268435456, BYTES('a'), one, 1), ECCH_PAYLOAD_TOO_LONG, 0, 0, 0);
    answered(strict_filter(0, 0, BYTES(0), one, 1), ECCH_TOPIC_NOT_UTF8, 0, 0, 0);
    KEPT;
    answered(strict_filter(1, 1, BYTES('a'), one, 1), 0, 11, 0, 0);
    answered(strict_filter(0, 0, BYTES('a'), one, 1), 0, 9, 0, 0);
}

typedef uint32_t ack_size(uint16_t, uint8_t, uint8_t, uint8_t, const uint8_t *, size_t, const uint8_t *, size_t, const size_t *, size_t, uint64_t *, size_t);
typedef uint32_t ack_write(uint16_t, uint8_t, uint8_t, uint8_t, const uint8_t *, size_t, const uint8_t *, size_t, const size_t *, size_t, uint8_t, size_t, uint8_t *, size_t, uint64_t *, size_t);

static const uint8_t puback_reasons[] = {
    ECCH_PUBACK_SUCCESS, ECCH_PUBACK_NO_MATCHING_SUBSCRIBERS, ECCH_PUBACK_UNSPECIFIED_ERROR, ECCH_PUBACK_IMPLEMENTATION_SPECIFIC_ERROR, ECCH_PUBACK_NOT_AUTHORIZED,
    ECCH_PUBACK_TOPIC_NAME_INVALID, ECCH_PUBACK_PACKET_IDENTIFIER_IN_USE, ECCH_PUBACK_QUOTA_EXCEEDED, ECCH_PUBACK_PAYLOAD_FORMAT_INVALID};
static const uint8_t pubrel_reasons[] = {ECCH_PUBREL_SUCCESS, ECCH_PUBREL_PACKET_IDENTIFIER_NOT_FOUND};
static const uint8_t suback_reasons[] = {
    ECCH_SUBACK_SUCCESS_AT_MOST_ONCE, ECCH_SUBACK_SUCCESS_AT_LEAST_ONCE, ECCH_SUBACK_SUCCESS_EXACTLY_ONCE, ECCH_SUBACK_UNSPECIFIED, ECCH_SUBACK_IMPLEMENTATION_SPECIFIC,
    ECCH_SUBACK_NOT_AUTHORIZED, ECCH_SUBACK_TOPIC_FILTER_INVALID, ECCH_SUBACK_PKID_IN_USE, ECCH_SUBACK_QUOTA_EXCEEDED, ECCH_SUBACK_SHARED_SUBSCRIPTIONS_NOT_SUPPORTED,
    ECCH_SUBACK_SUBSCRIPTION_ID_NOT_SUPPORTED, ECCH_SUBACK_WILDCARD_SUBSCRIPTIONS_NOT_SUPPORTED};
static const uint8_t unsuback_reasons[] = {
    ECCH_UNSUBACK_SUCCESS, ECCH_UNSUBACK_NO_SUBSCRIPTION_EXISTED, ECCH_UNSUBACK_UNSPECIFIED_ERROR, ECCH_UNSUBACK_IMPLEMENTATION_SPECIFIC_ERROR, ECCH_UNSUBACK_NOT_AUTHORIZED,
    ECCH_UNSUBACK_TOPIC_FILTER_INVALID, ECCH_UNSUBACK_PACKET_IDENTIFIER_IN_USE};

/* PubAck, PubRec, PubRel and PubComp: each reason, the short form, properties, and the order of what is refused. */
static void written_acks(void) {
    static const struct {
        uint8_t kind, first;
        ack_size *size;
        ack_write *write;
        const uint8_t *reasons;
        size_t reasons_len;
    } acks[] = {
        {ECCH_PUBACK, 0x40, ecch_puback_size, ecch_puback_write, puback_reasons, sizeof puback_reasons},
        {ECCH_PUBREC, 0x50, ecch_pubrec_size, ecch_pubrec_write, puback_reasons, sizeof puback_reasons},
        {ECCH_PUBREL, 0x62, ecch_pubrel_size, ecch_pubrel_write, pubrel_reasons, sizeof pubrel_reasons},
        {ECCH_PUBCOMP, 0x70, ecch_pubcomp_size, ecch_pubcomp_write, pubrel_reasons, sizeof pubrel_reasons},
    };
    static const size_t pair[] = {1, 0}, odd[] = {2};
    size_t a;
    for (a = 0; a < sizeof acks / sizeof *acks; a++) {
        ack_size *const size = acks[a].size;
        ack_write *const write = acks[a].write;
        const uint8_t first = acks[a].first, last = acks[a].reasons[acks[a].reasons_len - 1];
        unsigned c;
#define SIZED ans, ECCH_ANSWER_LEN
#define INTO FREE, out, sizeof out, ans, ECCH_ANSWER_LEN
        /* every byte as a reason: written if it is listed, and read so */
        for (c = 0; c < 256; c++) {
            const int listed = memchr(acks[a].reasons, (int)c, acks[a].reasons_len) != NULL;
            const uint8_t frame[] = {first, 0x04, 0x12, 0x34, (uint8_t)c, 0x00};
            FRESH;
            answered(size(0x1234, (uint8_t)c, 0, OFF, NO_USER, SIZED), 0, c == 0 ? 4 : 6, 0, 0);
            answered(write(0x1234, (uint8_t)c, 0, OFF, NO_USER, INTO), listed ? 0 : ECCH_INVALID_REASON, listed ? c == 0 ? 4 : 6 : 0, listed ? 0 : c, 0);
            if (c == 0) wrote(BYTES(first, 0x02, 0x12, 0x34));
            else if (listed) wrote(frame, sizeof frame);
            else KEPT;
            CHECK(reads(frame, sizeof frame, FREE) == (listed ? 0 : ECCH_INVALID_REASON));
            CHECK(rec[ECCH_KIND] == (listed ? acks[a].kind : 0u) && rec[ECCH_REASON] == (listed ? c : 0) && rec[ECCH_VALUE_1] == (listed ? 0 : c) && rec[ECCH_TAKEN] == 6);
        }
#define ACKED 0, last, 1, 1, BYTES('n', 'o'), BYTES('k'), pair, 2
        FRESH;
        answered(size(ACKED, SIZED), 0, 17, 0, 0);
        answered(write(ACKED, 1, 16, out, sizeof out, ans, ECCH_ANSWER_LEN), ECCH_OUTGOING_PACKET_TOO_LARGE, 0, 17, 16);
        answered(write(ACKED, FREE, out, 16, ans, ECCH_ANSWER_LEN), ECCH_NO_ROOM, 0, 17, 0);
        KEPT;
        answered(write(ACKED, 1, 17, out, 17, ans, ECCH_ANSWER_LEN), 0, 17, 0, 0);
        wrote(BYTES(first, 0x0F, 0x00, 0x00, last, 0x0B, 31, 0x00, 0x02, 'n', 'o', 38, 0x00, 0x01, 'k', 0x00, 0x00));
        CHECK(reads(out, sizeof out, FREE) == 0 && rec[ECCH_KIND] == acks[a].kind && rec[ECCH_TAKEN] == 17 && rec[ECCH_REASON] == last && rec[ECCH_REASON_STRING_LEN] == 2 && rec[ECCH_BLOCK_LEN] == 11);
        /* 20, then 15, then the texts; a set that is there and empty is written as one that is absent */
        FRESH;
        answered(size(1, 0x77, 0, 0, BYTES('n'), NO_USER, SIZED), ECCH_LIST_MISMATCH, 0, 0, 0);
        answered(write(1, 0x77, 0, 0, BYTES('n'), NO_USER, INTO), ECCH_LIST_MISMATCH, 0, 0, 0);
        answered(write(1, 0x77, 1, OFF, BYTES('k', 'v'), odd, 1, INTO), ECCH_LIST_MISMATCH, 0, 0, 0);
        answered(size(1, 0x77, 1, 1, BYTES(0xFF), NO_USER, SIZED), 0, 10, 0, 0);
        answered(write(1, 0x77, 1, 1, BYTES(0xFF), NO_USER, INTO), ECCH_INVALID_REASON, 0, 0x77, 0);
        answered(write(1, last, 1, 1, BYTES(0xFF), NO_USER, INTO), ECCH_TOPIC_NOT_UTF8, 0, 0, 0);
        answered(write(1, last, 1, NUL, NO_USER, INTO), ECCH_TOPIC_NOT_UTF8, 0, 0, 0);
        answered(write(1, last, 1, OFF, BYTES(0), pair, 2, INTO), ECCH_TOPIC_NOT_UTF8, 0, 0, 0);
        answered(write(1, 0x77, 1, 1, huge, sizeof huge, NO_USER, INTO), ECCH_INVALID_REASON, 0, 0x77, 0);
        answered(write(1, last, 1, 1, huge, sizeof huge, NO_USER, INTO), ECCH_STRING_TOO_LONG, 0, sizeof huge, 0);
        answered(write(1, last, 1, OFF, huge, sizeof huge, huge_pair, 2, INTO), ECCH_STRING_TOO_LONG, 0, sizeof huge, 0);
        KEPT;
        answered(write(1, last, 1, OFF, NO_USER, INTO), 0, 6, 0, 0);
        wrote(BYTES(first, 0x04, 0x00, 0x01, last, 0x00));
    }
}

typedef uint32_t reply_size(uint16_t, uint8_t, uint8_t, const uint8_t *, size_t, const uint8_t *, size_t, const size_t *, size_t, const uint8_t *, size_t, uint64_t *, size_t);
typedef uint32_t reply_write(uint16_t, uint8_t, uint8_t, const uint8_t *, size_t, const uint8_t *, size_t, const size_t *, size_t, const uint8_t *, size_t, uint8_t, size_t, uint8_t *, size_t, uint64_t *, size_t);

/* SubAck and UnsubAck: each reason, properties, and the order of what is refused. */
static void written_replies(void) {
    static const struct {
        uint8_t kind, first;
        reply_size *size;
        reply_write *write;
        const uint8_t *reasons;
        size_t reasons_len;
    } replies[] = {
        {ECCH_SUBACK, 0x90, ecch_suback_size, ecch_suback_write, suback_reasons, sizeof suback_reasons},
        {ECCH_UNSUBACK, 0xB0, ecch_unsuback_size, ecch_unsuback_write, unsuback_reasons, sizeof unsuback_reasons},
    };
    static const size_t pair[] = {0, 1};
    size_t a;
    for (a = 0; a < sizeof replies / sizeof *replies; a++) {
        reply_size *const size = replies[a].size;
        reply_write *const write = replies[a].write;
        const uint8_t first = replies[a].first, last = replies[a].reasons[replies[a].reasons_len - 1];
        unsigned c;
        for (c = 0; c < 256; c++) {
            const int listed = memchr(replies[a].reasons, (int)c, replies[a].reasons_len) != NULL;
            const uint8_t frame[] = {first, 0x05, 0x12, 0x34, 0x00, last, (uint8_t)c};
            FRESH;
            answered(size(0x1234, 0, OFF, NO_USER, frame + 5, 2, SIZED), 0, 7, 0, 0);
            answered(write(0x1234, 0, OFF, NO_USER, frame + 5, 2, INTO), listed ? 0 : ECCH_INVALID_REASON, listed ? 7 : 0, listed ? 0 : c, 0);
            if (listed) wrote(frame, sizeof frame);
            else KEPT;
            CHECK(reads(frame, sizeof frame, FREE) == (listed ? 0 : ECCH_INVALID_REASON));
            CHECK(rec[ECCH_KIND] == (listed ? replies[a].kind : 0u) && rec[ECCH_REASONS_LEN] == (listed ? 2 : 0) && rec[ECCH_VALUE_1] == (listed ? 0 : c) && rec[ECCH_TAKEN] == 7);
        }
#define REPLIED 0, 1, 1, BYTES('n', 'o'), BYTES('v'), pair, 2, BYTES(last, 0x00)
        FRESH;
        answered(size(REPLIED, SIZED), 0, 18, 0, 0);
        answered(write(REPLIED, 1, 17, out, sizeof out, ans, ECCH_ANSWER_LEN), ECCH_OUTGOING_PACKET_TOO_LARGE, 0, 18, 17);
        answered(write(REPLIED, FREE, out, 17, ans, ECCH_ANSWER_LEN), ECCH_NO_ROOM, 0, 18, 0);
        KEPT;
        answered(write(REPLIED, 1, 18, out, 18, ans, ECCH_ANSWER_LEN), 0, 18, 0, 0);
        wrote(BYTES(first, 0x10, 0x00, 0x00, 0x0B, 31, 0x00, 0x02, 'n', 'o', 38, 0x00, 0x00, 0x00, 0x01, 'v', last, 0x00));
        CHECK(reads(out, sizeof out, FREE) == 0 && rec[ECCH_KIND] == replies[a].kind && rec[ECCH_TAKEN] == 18 && rec[ECCH_REASONS_START] == 16 && rec[ECCH_REASONS_LEN] == 2 && rec[ECCH_BLOCK_LEN] == 11);
        /* 20, then the texts, then 15 of the first that is unlisted; none is 13, after 16 and before 19 */
        FRESH;
        answered(size(1, 0, 0, BYTES('n'), NO_USER, BYTES(0x77), SIZED), ECCH_LIST_MISMATCH, 0, 0, 0);
        answered(write(1, 0, 0, BYTES('n'), NO_USER, BYTES(0x77), INTO), ECCH_LIST_MISMATCH, 0, 0, 0);
        answered(write(1, 1, OFF, BYTES('v'), NO_LENGTHS, BYTES(0x77), INTO), ECCH_LIST_MISMATCH, 0, 0, 0);
        answered(write(1, 1, 1, BYTES(0xFF), NO_USER, BYTES(0x77), INTO), ECCH_TOPIC_NOT_UTF8, 0, 0, 0);
        answered(write(1, 1, NUL, NO_USER, BYTES(0x77), INTO), ECCH_TOPIC_NOT_UTF8, 0, 0, 0);
        answered(write(1, 1, OFF, BYTES(0), pair, 2, BYTES(0x77), INTO), ECCH_TOPIC_NOT_UTF8, 0, 0, 0);
        answered(write(1, 1, 1, huge, sizeof huge, NO_USER, BYTES(0x77), INTO), ECCH_STRING_TOO_LONG, 0, sizeof huge, 0);
        answered(write(1, 1, OFF, huge, sizeof huge, huge_pair, 2, BYTES(0x77), INTO), ECCH_STRING_TOO_LONG, 0, sizeof huge, 0);
        answered(write(1, 1, 1, BYTES('n'), NO_USER, BYTES(last, 0x77, 0x78), 1, 0, out, 0, ans, ECCH_ANSWER_LEN), ECCH_INVALID_REASON, 0, 0x77, 0);
        answered(size(1, 0, OFF, NO_USER, NONE, SIZED), 0, 5, 0, 0);
        answered(write(1, 0, OFF, NO_USER, NONE, 1, 4, out, sizeof out, ans, ECCH_ANSWER_LEN), ECCH_OUTGOING_PACKET_TOO_LARGE, 0, 5, 4);
        answered(write(1, 0, OFF, NO_USER, NONE, FREE, out, 0, ans, ECCH_ANSWER_LEN), ECCH_EMPTY_SUBSCRIPTION, 0, 0, 0);
        KEPT;
        answered(write(1, 1, OFF, NO_USER, BYTES(last), INTO), 0, 6, 0, 0);
        wrote(BYTES(first, 0x04, 0x00, 0x01, 0x00, last));
    }
}

/* Unsubscribe: topics, properties, and the order of what is refused. */
static void written_unsubscribes(void) {
    static const uint8_t whole[] = {0xA2, 0x11, 0x12, 0x34, 0x07, 38, 0x00, 0x01, 'k', 0x00, 0x01, 'v', 0x00, 0x02, 'a', '#', 0x00, 0x01, 'b'};
    static const size_t pair[] = {1, 1}, topics[] = {2, 1}, none[] = {0}, one[] = {1};
#define TOPICS 0x1234, 1, BYTES('k', 'v'), pair, 2, BYTES('a', '#', 'b'), topics, 2
    FRESH;
    answered(ecch_unsubscribe_size(TOPICS, SIZED), 0, sizeof whole, 0, 0);
    answered(ecch_unsubscribe_write(TOPICS, 1, 18, out, sizeof out, ans, ECCH_ANSWER_LEN), ECCH_OUTGOING_PACKET_TOO_LARGE, 0, 19, 18);
    answered(ecch_unsubscribe_write(TOPICS, FREE, out, 18, ans, ECCH_ANSWER_LEN), ECCH_NO_ROOM, 0, 19, 0);
    KEPT;
    answered(ecch_unsubscribe_write(TOPICS, 1, 19, out, 19, ans, ECCH_ANSWER_LEN), 0, sizeof whole, 0, 0);
    WROTE(whole);
    CHECK(reads(out, sizeof out, FREE) == 0 && rec[ECCH_KIND] == ECCH_UNSUBSCRIBE && rec[ECCH_TAKEN] == 19 && rec[ECCH_PKID] == 0x1234 && rec[ECCH_TOPICS_START] == 12 && rec[ECCH_TOPICS_LEN] == 7);

    /* one topic of no bytes; identifier 0 */
    FRESH;
    answered(ecch_unsubscribe_size(0, 0, NO_USER, NONE, none, 1, SIZED), 0, 7, 0, 0);
    answered(ecch_unsubscribe_write(0, 0, NO_USER, NONE, none, 1, INTO), 0, 7, 0, 0);
    wrote(BYTES(0xA2, 0x05, 0x00, 0x00, 0x00, 0x00, 0x00));

    FRESH;
    answered(ecch_unsubscribe_size(1, 0, BYTES('k', 'v'), pair, 2, BYTES('a'), one, 1, SIZED), ECCH_LIST_MISMATCH, 0, 0, 0);
    answered(ecch_unsubscribe_write(1, 0, BYTES('k', 'v'), pair, 2, BYTES('a'), one, 1, INTO), ECCH_LIST_MISMATCH, 0, 0, 0);
    answered(ecch_unsubscribe_size(1, 0, NO_USER, BYTES('a', 'b'), one, 1, SIZED), ECCH_LIST_MISMATCH, 0, 0, 0);
    answered(ecch_unsubscribe_write(1, 0, NO_USER, BYTES('a', 'b'), one, 1, INTO), ECCH_LIST_MISMATCH, 0, 0, 0);
    answered(ecch_unsubscribe_write(1, 0, NO_USER, BYTES(0xFF), one, 1, INTO), ECCH_TOPIC_NOT_UTF8, 0, 0, 0);
    answered(ecch_unsubscribe_write(1, 0, NO_USER, BYTES(0), one, 1, INTO), ECCH_TOPIC_NOT_UTF8, 0, 0, 0);
    answered(ecch_unsubscribe_write(1, 1, BYTES('k', 0), pair, 2, BYTES('a'), one, 1, INTO), ECCH_TOPIC_NOT_UTF8, 0, 0, 0);
    answered(ecch_unsubscribe_write(1, 0, NO_USER, huge, sizeof huge, huge_length, 1, INTO), ECCH_STRING_TOO_LONG, 0, sizeof huge, 0);
    answered(ecch_unsubscribe_write(1, 1, huge, sizeof huge, huge_pair, 2, BYTES(0xFF), one, 1, INTO), ECCH_STRING_TOO_LONG, 0, sizeof huge, 0);
    answered(ecch_unsubscribe_size(1, 0, NO_USER, NONE, NO_LENGTHS, SIZED), 0, 5, 0, 0);
    answered(ecch_unsubscribe_write(1, 0, NO_USER, NONE, NO_LENGTHS, 1, 4, out, sizeof out, ans, ECCH_ANSWER_LEN), ECCH_OUTGOING_PACKET_TOO_LARGE, 0, 5, 4);
    answered(ecch_unsubscribe_write(1, 0, NO_USER, NONE, NO_LENGTHS, FREE, out, 0, ans, ECCH_ANSWER_LEN), ECCH_EMPTY_SUBSCRIPTION, 0, 0, 0);
    KEPT;
}

/* How many numbers each layout has: of a longer array no more are set. */
static void widths(void) {
    uint64_t a[64];
    size_t n;
#define WIDTH(len, ...) \
    memset(a, 0xEE, sizeof a); \
    CHECK((__VA_ARGS__) != 0); \
    for (n = 0; n < 64; n++) CHECK((a[n] == 0xEEEEEEEEEEEEEEEEu) == (n >= len))
    WIDTH(ECCH_RECORD_LEN, ecch_read(NONE, FREE, a, 64));
    WIDTH(ECCH_USER_LEN, ecch_user_property(NONE, 3, 0, 0, 0, a, 64));
    WIDTH(ECCH_IDENTIFIER_LEN, ecch_subscription_identifier(NONE, 0, 0, 0, a, 64));
    WIDTH(ECCH_FILTER_LEN, ecch_filter(NONE, 0, 0, 0, a, 64));
    WIDTH(ECCH_REASON_NUMBERS, ecch_reason(NONE, 9, 0, 0, 0, a, 64));
    WIDTH(ECCH_TOPIC_NUMBERS, ecch_topic(NONE, 0, 0, 0, a, 64));
    WIDTH(ECCH_PROPERTY_NUMBERS, ecch_property(NONE, 3, 0, 0, a, 64));
    WIDTH(ECCH_NEXT_FILTER_NUMBERS, ecch_next_filter(NONE, 0, 0, a, 64));
    WIDTH(ECCH_NEXT_TOPIC_NUMBERS, ecch_next_topic(NONE, 0, 0, a, 64));
    WIDTH(ECCH_ANSWER_LEN, ecch_pingreq_write(1, 0, out, sizeof out, a, 64));
}

int main(void) {
    size_t i;
    for (i = 0; i < sizeof out; i++) before[i] = (uint8_t)(i ^ 0x5A);
    memset(ans, 0xEE, sizeof ans);
    refusals();
    spellings();
    strictness();
    kinds();
    packets();
    properties_stand();
    acks();
    replies();
    unsubscribes();
    items();
    walks();
    names();
    widths();
    writes();
    strict_writes();
    written_acks();
    written_replies();
    written_unsubscribes();
    printf("%u checks, %u failed\n", cases, failures);
    return failures != 0;
}
