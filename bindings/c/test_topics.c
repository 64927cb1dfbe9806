/* Topics and filters through the header: MQTT 4.7's examples, 02's rules, and a filter of 65,535 slashes on a stack of 2 MB and of 16 KiB (or
 * the least that the machine allows, where that is more). One line for each case that fails, and a last line with the count. */
#define _POSIX_C_SOURCE 200112L
#include "ecchjulmina.h"

#include <limits.h>
#include <pthread.h>
#include <stdio.h>
#include <string.h>

static unsigned cases, failures;

#define CHECK(x) check((x), __LINE__, #x)

static void check(int ok, int line, const char *what) {
    cases++;
    if (!ok) {
        failures++;
        printf("line %d: %s\n", line, what);
    }
}

static const uint8_t *bytes(const char *s) { return (const uint8_t *)s; }
static int wild(const char *s) { return ecch_has_wildcards(bytes(s), strlen(s)); }
static int topic(const char *s) { return ecch_valid_topic(bytes(s), strlen(s)); }
static int filter(const char *s) { return ecch_valid_filter(bytes(s), strlen(s)); }
static int match(const char *t, const char *f) { return ecch_matches(bytes(t), strlen(t), bytes(f), strlen(f)); }

static void standard(void) {
    CHECK(match("sport/tennis/player1", "sport/tennis/player1/#") == 1);
    CHECK(match("sport/tennis/player1/score/wimbledon", "sport/tennis/player1/#") == 1);
    CHECK(match("sport", "sport/#") == 1);
    CHECK(match("sport/tennis/player1", "sport/tennis/+") == 1);
    CHECK(match("sport/tennis/player1/ranking", "sport/tennis/+") == 0);
    CHECK(match("sport", "sport/+") == 0);
    CHECK(match("sport/", "sport/+") == 1);
    CHECK(match("/finance", "+/+") == 1);
    CHECK(match("/finance", "/+") == 1);
    CHECK(match("/finance", "+") == 0);
    CHECK(match("$SYS/a", "#") == 0);
    CHECK(match("$SYS/monitor/Clients", "+/monitor/Clients") == 0);
    CHECK(match("$SYS/a", "$SYS/#") == 1);
    CHECK(match("$SYS/monitor/Clients", "$SYS/monitor/+") == 1);
    CHECK(filter("sport/tennis/#") == 1);
    CHECK(filter("+/tennis/#") == 1);
    CHECK(filter("sport/tennis#") == 0);
    CHECK(filter("sport/tennis/#/ranking") == 0);
    CHECK(filter("sport+") == 0);
    CHECK(filter("/") == 1);
}

static void requests(void) {
    CHECK(match("$", "$") == 1);
    CHECK(match("\xC3\xA9", "\xC3\xA9") == 1);
    CHECK(match("\xFF/a", "+/a") == 1);
    CHECK(match("#", "+") == 0);
    CHECK(match("#", "#") == 1);
    CHECK(wild("a/b") == 0);
    CHECK(wild("a/b/c/d/e/f/g/h/i/j/+") == 1);
    CHECK(topic("a/b") == 1);
    CHECK(topic("a/#") == 0);
    CHECK(ecch_has_wildcards(ECCH_NOTHING, 0) == 0);
    CHECK(ecch_valid_topic(ECCH_NOTHING, 0) == 1);
    CHECK(ecch_valid_filter(ECCH_NOTHING, 0) == 0);
    CHECK(ecch_matches(ECCH_NOTHING, 0, ECCH_NOTHING, 0) == 1);
    CHECK(ecch_matches(ECCH_NOTHING, 0, bytes("#"), 1) == 1);
    /* a zero byte is a byte like others */
    CHECK(ecch_matches(bytes("a\0b"), 3, bytes("a\0b"), 3) == 1);
    CHECK(ecch_matches(bytes("a\0b"), 3, bytes("a\0c"), 3) == 0);
}

static uint8_t slashes[65535], pluses[131071];

static void *deep(void *unused) {
    (void)unused;
    CHECK(ecch_matches(slashes, sizeof slashes, slashes, sizeof slashes) == 1);
    CHECK(ecch_matches(slashes, sizeof slashes, pluses, sizeof pluses) == 1);
    CHECK(ecch_matches(slashes, sizeof slashes, slashes, sizeof slashes - 1) == 0);
    CHECK(ecch_valid_filter(pluses, sizeof pluses) == 1);
    return NULL;
}

/* on a stack of that size, or of the least that the machine allows */
static void on_stack(size_t size) {
    pthread_attr_t with;
    if (size < (size_t)PTHREAD_STACK_MIN) size = (size_t)PTHREAD_STACK_MIN;
    pthread_t thread;
    CHECK(pthread_attr_init(&with) == 0);
    CHECK(pthread_attr_setstacksize(&with, size) == 0);
    CHECK(pthread_create(&thread, &with, deep, NULL) == 0);
    CHECK(pthread_join(thread, NULL) == 0);
}

int main(void) {
    size_t i;
    memset(slashes, '/', sizeof slashes);
    for (i = 0; i < sizeof pluses; i++) pluses[i] = i % 2 ? '/' : '+';
    standard();
    requests();
    on_stack((size_t)2 << 20);
    on_stack((size_t)16 << 10);
    printf("%u cases, %u failures\n", cases, failures);
    return failures != 0;
}
