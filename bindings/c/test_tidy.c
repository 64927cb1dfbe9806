/* The tidy form of a frame through the header (02's P14): every layout, what becomes shorter and longer, refusals, room, and every byte of the
 * output before and behind. */
#include <stdio.h>
#include <string.h>

#include "ecchjulmina.h"

static unsigned cases, failures;
#define CHECK(what) \
    do { \
        cases++; \
        if (!(what)) { \
            failures++; \
            printf("line %d: %s\n", line, #what); \
        } \
    } while (0)

enum { ROOM = 600 };
static uint8_t out[ROOM];
static uint64_t answer[ECCH_TIDY_NUMBERS + 1];

/* Calls with `room` bytes of output, all 0xEE before, and sees that nothing behind what is set was set. */
static uint32_t call(int line, const uint8_t *stream, size_t len, size_t room) {
    uint32_t refused;
    size_t i, size;
    memset(out, 0xEE, sizeof out);
    memset(answer, 0xEE, sizeof answer);
    refused = ecch_tidy(stream, len, out, room, answer, ECCH_TIDY_NUMBERS);
    size = (size_t)answer[ECCH_TIDY_SIZE];
    CHECK(answer[ECCH_TIDY_NUMBERS] == 0xEEEEEEEEEEEEEEEEu);
    CHECK(size <= room && answer[ECCH_TIDY_TAKEN] <= len);
    if (refused) CHECK(size == 0);
    for (i = refused ? 0 : size; i < ROOM; i++)
        if (out[i] != 0xEE) break;
    CHECK(i == ROOM);
    return refused;
}

/* The frame at the start of the stream has this tidy form: with room for it, for one byte more, and, refused, with less; asked again of the
 * tidy form; and of the frame alone. */
static void tidies(int line, const uint8_t *stream, size_t len, size_t taken, const uint8_t *form, size_t size) {
    size_t room;
    for (room = 0; room <= size + 1; room++) {
        uint32_t refused = call(line, stream, len, room);
        if (room < size) {
            CHECK(refused == ECCH_NO_ROOM && answer[ECCH_TIDY_VALUE_1] == size && answer[ECCH_TIDY_VALUE_2] == 0 && answer[ECCH_TIDY_TAKEN] == 0);
        } else {
            CHECK(refused == 0 && answer[ECCH_TIDY_SIZE] == size && answer[ECCH_TIDY_VALUE_1] == 0 && answer[ECCH_TIDY_VALUE_2] == 0 && answer[ECCH_TIDY_TAKEN] == taken);
            CHECK(memcmp(out, form, size) == 0);
        }
    }
    CHECK(call(line, stream, taken, ROOM) == 0 && answer[ECCH_TIDY_SIZE] == size && answer[ECCH_TIDY_TAKEN] == taken && memcmp(out, form, size) == 0);
    /* tidied again it stays */
    CHECK(call(line, form, size, size) == 0 && answer[ECCH_TIDY_SIZE] == size && answer[ECCH_TIDY_TAKEN] == size && memcmp(out, form, size) == 0);
}

/* The refusal with its values and the bytes taken, whatever the room. */
static void refuses(int line, const uint8_t *stream, size_t len, uint32_t number, uint64_t one, uint64_t two, uint64_t taken) {
    size_t room;
    for (room = 0; room < 20; room++) {
        CHECK(call(line, stream, len, room) == number);
        CHECK(answer[ECCH_TIDY_VALUE_1] == one && answer[ECCH_TIDY_VALUE_2] == two && answer[ECCH_TIDY_TAKEN] == taken);
    }
}

#define BYTES(...) ((const uint8_t[]){__VA_ARGS__}), sizeof((const uint8_t[]){__VA_ARGS__})
/* a frame, and its tidy form */
#define TIDIES(frame, form) tidies(__LINE__, frame, SECOND(frame), form)
#define SECOND(...) SECOND_OF(__VA_ARGS__)
#define SECOND_OF(first, second) second
/* a frame that is tidy */
#define STAYS(...) tidies(__LINE__, BYTES(__VA_ARGS__), sizeof((const uint8_t[]){__VA_ARGS__}), BYTES(__VA_ARGS__))
#define REFUSES(number, one, two, taken, ...) refuses(__LINE__, BYTES(__VA_ARGS__), number, one, two, taken)

int main(void) {
    int line = __LINE__;
    /* ---- every layout, tidy as it is */
    STAYS(0x30, 8, 0, 3, 'a', '/', 'b', 0, 'h', 'i');
    STAYS(0x3D, 10, 0, 1, 't', 0, 7, 2, 1, 1, 'h', 'i');
    STAYS(0x40, 2, 0, 10);
    STAYS(0x50, 4, 0, 10, 0x99, 0);
    STAYS(0x62, 8, 0, 10, 0x92, 4, 31, 0, 1, 'n');
    STAYS(0x70, 12, 0, 10, 0, 8, 38, 0, 1, 'k', 0, 2, 'v', 'w');
    STAYS(0x82, 7, 0, 1, 0, 0, 1, 'a', 0x2D);
    STAYS(0x90, 5, 0, 1, 0, 0, 0xA2);
    STAYS(0xA2, 9, 0, 1, 0, 0, 1, 'a', 0, 1, 'b');
    STAYS(0xB0, 4, 0, 1, 0, 0x11);
    STAYS(0xC0, 0);
    STAYS(0xD0, 0);
    /* identifier 0, which every kind but a Publish may have, and an empty topic */
    STAYS(0x40, 2, 0, 0);
    STAYS(0x30, 3, 0, 0, 0);

    /* ---- an acknowledgement of five bytes becomes six, for the reasons that are no success; of every kind */
    TIDIES(BYTES(0x40, 3, 0, 10, 0x10), BYTES(0x40, 4, 0, 10, 0x10, 0));
    TIDIES(BYTES(0x50, 3, 0, 10, 0x97), BYTES(0x50, 4, 0, 10, 0x97, 0));
    TIDIES(BYTES(0x62, 3, 0, 10, 0x92), BYTES(0x62, 4, 0, 10, 0x92, 0));
    TIDIES(BYTES(0x70, 3, 0, 10, 0x92), BYTES(0x70, 4, 0, 10, 0x92, 0));
    /* success in five bytes and in six becomes four */
    TIDIES(BYTES(0x40, 3, 0, 10, 0), BYTES(0x40, 2, 0, 10));
    TIDIES(BYTES(0x40, 4, 0, 10, 0, 0), BYTES(0x40, 2, 0, 10));
    TIDIES(BYTES(0x50, 3, 0, 10, 0), BYTES(0x50, 2, 0, 10));
    TIDIES(BYTES(0x62, 4, 0, 10, 0, 0), BYTES(0x62, 2, 0, 10));
    TIDIES(BYTES(0x70, 4, 0, 10, 0, 0), BYTES(0x70, 2, 0, 10));
    /* flags that are not looked at */
    TIDIES(BYTES(0x4F, 2, 0, 10), BYTES(0x40, 2, 0, 10));
    TIDIES(BYTES(0x60, 2, 0, 10), BYTES(0x62, 2, 0, 10));
    TIDIES(BYTES(0x80, 7, 0, 1, 0, 0, 1, 'a', 1), BYTES(0x82, 7, 0, 1, 0, 0, 1, 'a', 1));
    TIDIES(BYTES(0x9F, 4, 0, 1, 0, 1), BYTES(0x90, 4, 0, 1, 0, 1));
    TIDIES(BYTES(0xA0, 6, 0, 1, 0, 0, 1, 'a'), BYTES(0xA2, 6, 0, 1, 0, 0, 1, 'a'));
    TIDIES(BYTES(0xBB, 4, 0, 1, 0, 0), BYTES(0xB0, 4, 0, 1, 0, 0));
    /* bits 6 and 7 of the options, in the first filter and behind it */
    TIDIES(BYTES(0x82, 15, 0, 1, 0, 0, 1, 'a', 0xC1, 0, 1, 'b', 0x7E - 0x10, 0, 1, 'c', 0x80), BYTES(0x82, 15, 0, 1, 0, 0, 1, 'a', 1, 0, 1, 'b', 0x2E, 0, 1, 'c', 0));
    /* a ping with a body, and with flags */
    TIDIES(BYTES(0xC0, 3, 1, 2, 3), BYTES(0xC0, 0));
    TIDIES(BYTES(0xD7, 1, 0xFF), BYTES(0xD0, 0));
    /* properties out of order; the items of a list keep theirs, and so does the payload */
    TIDIES(BYTES(0x30, 27, 0, 1, 't', 21, 3, 0, 1, 'c', 11, 5, 38, 0, 1, 'a', 0, 1, '1', 11, 200, 1, 1, 1, 35, 0, 9, 'h', 'i'),
        BYTES(0x30, 27, 0, 1, 't', 21, 1, 1, 35, 0, 9, 38, 0, 1, 'a', 0, 1, '1', 11, 5, 11, 200, 1, 3, 0, 1, 'c', 'h', 'i'));
    TIDIES(BYTES(0x34, 36, 0, 1, 't', 0, 1, 28, 38, 0, 1, 'b', 0, 0, 9, 0, 2, 0, 0xFF, 8, 0, 1, 'r', 2, 0, 0, 0, 60, 38, 0, 1, 'a', 0, 0, 11, 1, '!', '!'),
        BYTES(0x34, 36, 0, 1, 't', 0, 1, 28, 2, 0, 0, 0, 60, 8, 0, 1, 'r', 9, 0, 2, 0, 0xFF, 38, 0, 1, 'b', 0, 0, 38, 0, 1, 'a', 0, 0, 11, 1, '!', '!'));
    TIDIES(BYTES(0x40, 13, 0, 1, 0, 9, 38, 0, 0, 0, 0, 31, 0, 1, 'r'), BYTES(0x40, 13, 0, 1, 0, 9, 31, 0, 1, 'r', 38, 0, 0, 0, 0));
    TIDIES(BYTES(0x90, 13, 0, 1, 9, 38, 0, 0, 0, 0, 31, 0, 1, 'r', 2), BYTES(0x90, 13, 0, 1, 9, 31, 0, 1, 'r', 38, 0, 0, 0, 0, 2));
    TIDIES(BYTES(0xB0, 13, 0, 1, 9, 38, 0, 0, 0, 0, 31, 0, 1, 'r', 0x11), BYTES(0xB0, 13, 0, 1, 9, 31, 0, 1, 'r', 38, 0, 0, 0, 0, 0x11));
    TIDIES(BYTES(0x82, 14, 0, 1, 7, 38, 0, 0, 0, 0, 11, 1, 0, 1, 'a', 0), BYTES(0x82, 14, 0, 1, 7, 11, 1, 38, 0, 0, 0, 0, 0, 1, 'a', 0));
    STAYS(0xA2, 16, 0, 1, 10, 38, 0, 0, 0, 0, 38, 0, 0, 0, 0, 0, 1, 'a');

    /* ---- only the frame at the start is taken, whatever stands behind it */
    line = __LINE__;
    tidies(line, BYTES(0x40, 3, 0, 10, 0, 0x40, 3, 0, 10, 0x10), 5, BYTES(0x40, 2, 0, 10));
    tidies(line, BYTES(0xC0, 0, 0xFF, 0xFF, 0xFF, 0xFF), 2, BYTES(0xC0, 0));

    /* ---- the reader's refusals: nothing is put, whatever the room */
    refuses(line, ECCH_NOTHING, 0, ECCH_INSUFFICIENT_BYTES, 2, 0, 0);
    REFUSES(ECCH_INSUFFICIENT_BYTES, 1, 0, 0, 0x30);
    REFUSES(ECCH_INSUFFICIENT_BYTES, 3, 0, 0, 0x30, 5, 0, 0);
    REFUSES(ECCH_MALFORMED_REMAINING_LENGTH, 0, 0, 0, 0x30, 0x80, 0);
    REFUSES(ECCH_INVALID_PACKET_TYPE, 15, 0, 2, 0xF0, 0);
    REFUSES(ECCH_PAYLOAD_REQUIRED, 0, 0, 2, 0x30, 0);
    REFUSES(ECCH_KIND_NOT_CARRIED, 1, 0, 3, 0x10, 1, 0);
    REFUSES(ECCH_MALFORMED_PACKET, 0, 0, 5, 0x30, 3, 0, 1, 'a');
    REFUSES(ECCH_MALFORMED_PACKET, 0, 0, 7, 0x40, 5, 0, 1, 0, 0, 0);
    REFUSES(ECCH_BOUNDARY_CROSSED, 9, 0, 6, 0x30, 4, 0, 9, 'a', 0);
    REFUSES(ECCH_TOPIC_NOT_UTF8, 0, 0, 9, 0x82, 7, 0, 1, 0, 0, 1, 0xFF, 1);
    REFUSES(ECCH_INVALID_PROPERTY_TYPE, 31, 0, 8, 0x30, 6, 0, 1, 'a', 2, 31, 0);
    REFUSES(ECCH_INVALID_QOS, 3, 0, 8, 0x36, 6, 0, 1, 'a', 0, 1, 0);
    REFUSES(ECCH_PACKET_ID_ZERO, 0, 0, 8, 0x32, 6, 0, 1, 'a', 0, 0, 0);
    REFUSES(ECCH_EMPTY_SUBSCRIPTION, 0, 0, 5, 0x82, 3, 0, 1, 0);
    REFUSES(ECCH_INVALID_RETAIN_FORWARD_RULE, 3, 0, 9, 0x82, 7, 0, 1, 0, 0, 1, 'a', 0x33);
    REFUSES(ECCH_INVALID_REASON, 17, 0, 5, 0x40, 3, 0, 10, 17);
    REFUSES(ECCH_DUPLICATE_PROPERTY, 1, 0, 10, 0x30, 8, 0, 1, 'a', 4, 1, 0, 1, 0);
    REFUSES(ECCH_SUBSCRIPTION_ID_ZERO, 0, 0, 8, 0x30, 6, 0, 1, 'a', 2, 11, 0);

    /* ---- a length of two bytes, for the block and the frame: 40 user properties, a format behind them */
    {
        uint8_t frame[300], form[300];
        size_t n = 0, m = 0, i;
        const uint8_t head[] = {0x30, 0xD0, 1, 0, 1, 't', 0xCA, 1};
        memcpy(frame, head, sizeof head);
        memcpy(form, head, sizeof head);
        n = m = sizeof head;
        form[m++] = 1;
        form[m++] = 7;
        for (i = 0; i < 40; i++) {
            const uint8_t pair[] = {38, 0, 0, 0, 0};
            memcpy(frame + n, pair, 5);
            memcpy(form + m, pair, 5);
            n += 5;
            m += 5;
        }
        frame[n++] = 1;
        frame[n++] = 7;
        frame[n++] = form[m++] = 'p';
        tidies(__LINE__, frame, n, n, form, m);
    }

    /* ---- a shorter array takes what fits */
    memset(answer, 0xEE, sizeof answer);
    CHECK(ecch_tidy(BYTES(0x40, 3, 0, 10, 0), out, ROOM, answer, 1) == 0 && answer[0] == 4 && answer[1] == 0xEEEEEEEEEEEEEEEEu);
    CHECK(ecch_tidy(BYTES(0x40, 3, 0, 10, 0), out, ROOM, ECCH_NOTHING, 0) == 0);
    CHECK(ecch_tidy(BYTES(0x40, 3, 0, 10, 0), ECCH_NOTHING, 0, answer, 4) == ECCH_NO_ROOM && answer[ECCH_TIDY_VALUE_1] == 4);
    printf("%u checks, %u failed\n", cases, failures);
    return failures != 0;
}
