/* ecch_next_frame: a stream of 35 bytes cut in two at every place and into pieces of every size, each frame read where it lies, against the
 * same frames read from the whole; the refusals 2, 3, 35 and 36, repeated; and numbers that are no state. One line for each case that fails,
 * and a last line with the count. */
#include "ecchjulmina.h"

#include <stdio.h>
#include <string.h>

static unsigned cases, failures;

#define CHECK(x) check((x), __LINE__, #x)

static void check(int ok, int line, const char *what) {
    cases++;
    if (!ok) {
        failures++;
        printf("line %d: %s\n", line, what);
    }
}

/* A Publish, a PingReq, kind 15, a Publish of QoS 1, a PubAck, a PingResp, and half a header. */
static const uint8_t stream[] = {0x30, 8, 0, 3, 'a', '/', 'b', 0, 'h', 'i', 0xC0, 0, 0xF0, 0, 0x32, 12, 0, 3, 'a', '/', 'b', 0, 10, 0, 'h', 'e', 'l', 'l', 0x40, 2, 0, 10, 0xD0, 0, 0x30};

#define MOST 16

/* What is said of a frame: the refusal's number and every number of its record, places from the frame's start. */
struct said {
    uint32_t number;
    uint64_t record[ECCH_RECORD_LEN];
};

static struct said list[MOST], cut[MOST];
static size_t listed, found;

static void whole(void) {
    size_t at = 0;
    while (listed < MOST) {
        struct said *s = &list[listed];
        s->number = ecch_read(stream + at, sizeof stream - at, 0, 0, s->record, ECCH_RECORD_LEN);
        if (s->number == ECCH_INSUFFICIENT_BYTES) return;
        at += s->record[ECCH_TAKEN];
        listed++;
    }
}

static uint8_t buffer[64];
static uint64_t state[ECCH_STATE_NUMBERS + 1], frame[ECCH_FRAME_NUMBERS + 1];

static uint32_t next(uint8_t limited, size_t limit, size_t room, const uint8_t *piece, size_t len) {
    memset(frame, 0xEE, sizeof frame);
    return ecch_next_frame(limited, limit, state, ECCH_STATE_NUMBERS, buffer, room, piece, len, frame, ECCH_FRAME_NUMBERS);
}

static void push(const uint8_t *piece, size_t len) {
    for (;;) {
        uint8_t before[sizeof buffer];
        memcpy(before, buffer, sizeof buffer);
        CHECK(next(0, 0, sizeof buffer, piece, len) == ECCH_OK);
        CHECK(frame[ECCH_FRAME_NUMBERS] == 0xEEEEEEEEEEEEEEEEu);
        if (frame[ECCH_FRAME_PLACE] == 0) {
            CHECK(frame[ECCH_FRAME_USED] == len && frame[ECCH_FRAME_LEN] == 0);
            return;
        }
        if (found == MOST) return;
        if (frame[ECCH_FRAME_PLACE] == ECCH_IN_PIECE) CHECK(memcmp(before, buffer, sizeof buffer) == 0);
        cut[found].number = ecch_read(frame[ECCH_FRAME_PLACE] == ECCH_IN_PIECE ? piece : buffer, frame[ECCH_FRAME_LEN], 0, 0, cut[found].record, ECCH_RECORD_LEN);
        found++;
        piece += frame[ECCH_FRAME_USED];
        len -= frame[ECCH_FRAME_USED];
    }
}

static void same(void) {
    size_t i;
    CHECK(found == listed);
    for (i = 0; i < listed && i < found; i++) {
        CHECK(cut[i].number == list[i].number);
        CHECK(memcmp(cut[i].record, list[i].record, sizeof list[i].record) == 0);
    }
    CHECK(state[ECCH_STATE_HELD] == 1);
    found = 0;
    memset(state, 0, sizeof state);
}

static void cuts(void) {
    size_t i, size;
    for (i = 0; i <= sizeof stream; i++) {
        push(stream, i);
        push((const uint8_t *)ECCH_NOTHING, 0);
        push(stream + i, sizeof stream - i);
        same();
    }
    for (size = 1; size <= sizeof stream; size++) {
        for (i = 0; i < sizeof stream; i += size) push(stream + i, size < sizeof stream - i ? size : sizeof stream - i);
        same();
    }
}

/* A refusal that ends the stream, and every later piece repeats; state and buffer stay. */
static void ends(const uint8_t *piece, size_t len, uint8_t limited, size_t limit, size_t room, uint32_t number, uint64_t first, uint64_t second) {
    int i;
    memset(state, 0, sizeof state);
    for (i = 0; i < 3; i++) {
        CHECK(next(limited, limit, room, i == 0 ? piece : (const uint8_t *)ECCH_NOTHING, i == 0 ? len : 0) == number);
        CHECK(frame[ECCH_FRAME_USED] == 0 && frame[ECCH_FRAME_PLACE] == 0 && frame[ECCH_FRAME_LEN] == 0);
        CHECK(frame[ECCH_FRAME_VALUE_1] == first && frame[ECCH_FRAME_VALUE_2] == second);
        CHECK(state[ECCH_STATE_ENDED] == (number == ECCH_BAD_BUFFER ? 0 : number));
    }
}

static void refusals(void) {
    static const uint8_t tail[] = {0x30, 0x80, 0x80, 0x80, 0x80}, spelt[] = {0x30, 0x80, 0x00};
    ends(tail, sizeof tail, 0, 0, 64, ECCH_MALFORMED_REMAINING_LENGTH, 0, 0);
    ends(spelt, sizeof spelt, 0, 0, 64, ECCH_MALFORMED_REMAINING_LENGTH, 0, 0);
    ends(stream, 2, 1, 9, 64, ECCH_PAYLOAD_SIZE_LIMIT_EXCEEDED, 10, 9);
    ends(stream, 2, 1, 9, 5, ECCH_PAYLOAD_SIZE_LIMIT_EXCEEDED, 10, 9);
    ends(stream, 2, 1, 10, 9, ECCH_FRAME_TOO_LONG, 0, 0);
    ends(stream, sizeof stream, 0, 0, 9, ECCH_FRAME_TOO_LONG, 0, 0);
    ends(stream, sizeof stream, 0, 0, 4, ECCH_BAD_BUFFER, 0, 0);
    ends(stream, sizeof stream, 0, 0, 0, ECCH_BAD_BUFFER, 0, 0);
}

/* Any numbers as a state. */
static void states(void) {
    uint64_t n;
    for (n = 0; n < 64; n++) {
        int known = n == 0 || n == 2 || n == 3 || n == 36;
        uint32_t number;
        state[0] = 2, state[1] = n, state[2] = 7, state[3] = 8;
        number = next(0, 0, 64, stream, sizeof stream);
        CHECK(known ? number == n : number == ECCH_BAD_BUFFER);
        if (!known) CHECK(state[0] == 2 && state[1] == n && state[2] == 7 && state[3] == 8);
        if (n == 3) CHECK(frame[ECCH_FRAME_VALUE_1] == 7 && frame[ECCH_FRAME_VALUE_2] == 8);
    }
    state[0] = 65, state[1] = 0;
    CHECK(next(0, 0, 64, stream, sizeof stream) == ECCH_BAD_BUFFER);
    CHECK(ecch_next_frame(0, 0, state, 3, buffer, 64, stream, sizeof stream, frame, 5) == ECCH_BAD_BUFFER);
    CHECK(ecch_next_frame(0, 0, (uint64_t *)ECCH_NOTHING, 0, buffer, 64, stream, sizeof stream, frame, 5) == ECCH_BAD_BUFFER);
}

int main(void) {
    whole();
    CHECK(listed == 6);
    cuts();
    refusals();
    states();
    printf("%u cases, %u failed\n", cases, failures);
    return failures != 0;
}
