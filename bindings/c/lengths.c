/* The length desk: reads the stream in the file named first, and prints each length record's topic and its length in whole metres. A record's
 * payload is a count of decimetres, big-endian, of one to four bytes. A record that is refused is named, and no length is made up for it. */
#include <inttypes.h>
#include <stdio.h>

#include "ecchjulmina.h"

static uint8_t stream[1 << 24];
static uint8_t aliases[ECCH_ALIAS_TABLE_LEN];
static unsigned lengths, none;

static void refused(size_t at, uint32_t number) {
    uint8_t name[24];
    const size_t len = ecch_name(number, name, sizeof name);
    printf("%zu no length: refused %" PRIu32 " %.*s\n", at, number, (int)len, (const char *)name);
    none++;
}

/* The count, rounded half up to metres. */
static uint64_t metres(const uint8_t *bytes, size_t len) {
    uint64_t count = 0;
    size_t i;
    for (i = 0; i < len; i++) count = count << 8 | bytes[i];
    return (count + 5) / 10;
}

static void record(size_t at, const uint64_t *r) {
    const uint8_t *frame = stream + at;
    const size_t taken = r[ECCH_TAKEN], topic = r[ECCH_TOPIC_START], topic_len = r[ECCH_TOPIC_LEN], len = r[ECCH_PAYLOAD_LEN];
    const uint8_t alias_on = (uint8_t)r[ECCH_ALIAS];
    const uint16_t alias = (uint16_t)r[ECCH_ALIAS_VALUE];
    uint64_t f[ECCH_FORCE_NUMBERS];
    uint32_t number = ecch_alias_learn(frame, taken, topic, topic_len, alias_on, alias, aliases, sizeof aliases);
    if (!number) number = ecch_topic_in_force(frame, taken, topic, topic_len, alias_on, alias, aliases, sizeof aliases, f, ECCH_FORCE_NUMBERS);
    if (number) {
        refused(at, number);
    } else if (len < 1 || len > 4) {
        printf("%zu no length: %zu bytes are no count\n", at, len);
        none++;
    } else {
        printf("%zu ", at);
        fwrite((f[ECCH_FORCE_SLICE] == ECCH_IN_TABLE ? aliases : frame) + f[ECCH_FORCE_START], 1, f[ECCH_FORCE_LEN], stdout);
        printf(" %" PRIu64 " m\n", metres(frame + r[ECCH_PAYLOAD_START], len));
        lengths++;
    }
}

static void desk(size_t len) {
    uint64_t r[ECCH_RECORD_LEN];
    size_t at;
    for (at = 0; at < len; at += r[ECCH_TAKEN]) {
        const uint32_t number = ecch_read(stream + at, len - at, 0, 0, r, ECCH_RECORD_LEN);
        if (number) {
            refused(at, number);
            if (r[ECCH_TAKEN] == 0) return;
        } else if (r[ECCH_KIND] == ECCH_PUBLISH) {
            record(at, r);
        }
    }
}

int main(int argc, char **argv) {
    FILE *file = argc == 2 ? fopen(argv[1], "rb") : NULL;
    size_t len;
    if (!file) {
        fprintf(stderr, "lengths: name one file with MQTT 5 frames\n");
        return 2;
    }
    len = fread(stream, 1, sizeof stream, file);
    if (ferror(file) || len == sizeof stream) {
        fprintf(stderr, "lengths: the file cannot be read, or has 16 MiB or more\n");
        return 1;
    }
    fclose(file);
    desk(len);
    printf("%u lengths, %u records without one\n", lengths, none);
    return 0;
}
