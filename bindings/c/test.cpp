// The header from C++: a frame written and read back, topics, and what has length 0. One line for each case that fails, and a last line with the
// count.
#include "ecchjulmina.h"

#include <cstdio>
#include <string>
#include <vector>

static unsigned cases, failures;

#define CHECK(x) check((x), __LINE__, #x)

static void check(bool ok, int line, const char *what) {
    cases++;
    if (!ok) {
        failures++;
        std::printf("line %d: %s\n", line, what);
    }
}

static const uint8_t *bytes(const std::string &s) { return reinterpret_cast<const uint8_t *>(s.data()); }

template <class T> static T *nothing() { return static_cast<T *>(ECCH_NOTHING); }

static std::vector<uint8_t> publish(const std::string &topic, const std::string &payload) {
    std::vector<uint8_t> out(1000);
    uint64_t answer[ECCH_ANSWER_LEN];
    const uint32_t refused = ecch_publish_write(
        0, 0, 0, 0, bytes(topic), topic.size(), 0, 0, 0, 0, 0, 0, 0, 0, nothing<uint8_t>(), 0, 0, nothing<uint8_t>(), 0,
        nothing<uint8_t>(), 0, nothing<size_t>(), 0, nothing<uint32_t>(), 0, 0, nothing<uint8_t>(), 0, bytes(payload), payload.size(),
        0, 0, out.data(), out.size(), answer, ECCH_ANSWER_LEN);
    CHECK(refused == ECCH_OK);
    out.resize(answer[ECCH_SIZE]);
    return out;
}

int main() {
    const std::vector<uint8_t> frame = publish("plant/2/length", "1204");
    uint64_t r[ECCH_RECORD_LEN];
    CHECK(frame.size() == 23);
    CHECK(ecch_read(frame.data(), frame.size(), 0, 0, r, ECCH_RECORD_LEN) == ECCH_OK);
    CHECK(r[ECCH_KIND] == ECCH_PUBLISH && r[ECCH_TAKEN] == frame.size());
    CHECK(std::string(frame.begin() + static_cast<long>(r[ECCH_PAYLOAD_START]), frame.end()) == "1204");
    CHECK(ecch_read(frame.data(), frame.size() - 1, 0, 0, r, ECCH_RECORD_LEN) == ECCH_INSUFFICIENT_BYTES && r[ECCH_VALUE_1] == 1);
    CHECK(ecch_read(nothing<uint8_t>(), 0, 0, 0, r, ECCH_RECORD_LEN) == ECCH_INSUFFICIENT_BYTES);
    CHECK(ecch_matches(bytes("a/b"), 3, bytes("a/+"), 3) == 1 && ecch_matches(bytes("a/b"), 3, bytes("a"), 1) == 0);
    std::printf("%u cases, %u failures\n", cases, failures);
    return failures != 0;
}
