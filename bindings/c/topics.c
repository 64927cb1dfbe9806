/* Reads a stream of MQTT 5 frames from the file named first, and prints topic and payload length of each Publish, the topics of each
 * Unsubscribe, and each refusal. */
#include <inttypes.h>
#include <stdio.h>

#include "ecchjulmina.h"

static uint8_t stream[1 << 24];

/* The topics of an Unsubscribe, walked: the frame and their end are handed over. */
static void left(size_t at, const uint64_t *r) {
    const size_t end = r[ECCH_TOPICS_START] + r[ECCH_TOPICS_LEN];
    uint64_t t[ECCH_NEXT_TOPIC_NUMBERS];
    size_t i;
    for (i = r[ECCH_TOPICS_START]; i < end; i = t[ECCH_NEXT_TOPIC_NEXT]) {
        /* never so: ecch_read takes topics only if they fill their place */
        if (ecch_next_topic(stream + at, r[ECCH_TAKEN], i, end, t, ECCH_NEXT_TOPIC_NUMBERS)) return;
        printf("%zu: leaves ", at);
        fwrite(stream + at + t[ECCH_NEXT_TOPIC_START], 1, t[ECCH_NEXT_TOPIC_LEN], stdout);
        printf("\n");
    }
}

/* The frames one after the other; a refusal that takes its frame is passed over, one that takes nothing ends the stream. */
static void topics(size_t len) {
    uint64_t r[ECCH_RECORD_LEN];
    size_t at;
    for (at = 0; at < len; at += r[ECCH_TAKEN]) {
        uint32_t refused = ecch_read(stream + at, len - at, 0, 0, r, ECCH_RECORD_LEN);
        if (refused) {
            printf("%zu: refusal %" PRIu32 "\n", at, refused);
            if (r[ECCH_TAKEN] == 0) return;
        } else if (r[ECCH_KIND] == ECCH_PUBLISH) {
            printf("%zu: ", at);
            fwrite(stream + at + r[ECCH_TOPIC_START], 1, r[ECCH_TOPIC_LEN], stdout);
            printf(" %" PRIu64 "\n", r[ECCH_PAYLOAD_LEN]);
        } else if (r[ECCH_KIND] == ECCH_UNSUBSCRIBE) {
            left(at, r);
        }
    }
}

int main(int argc, char **argv) {
    FILE *file = argc == 2 ? fopen(argv[1], "rb") : NULL;
    size_t len;
    if (!file) {
        fprintf(stderr, "topics: name one file with MQTT 5 frames\n");
        return 2;
    }
    len = fread(stream, 1, sizeof stream, file);
    if (ferror(file) || len == sizeof stream) {
        fprintf(stderr, "topics: the file cannot be read, or has 16 MiB or more\n");
        return 1;
    }
    fclose(file);
    topics(len);
    return 0;
}
