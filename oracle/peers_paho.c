/* peers_paho FILE ROUNDS: the frames of FILE through the packet reader of Eclipse Paho's C client 1.3.12, which its static library holds: the fixed
 * header is read here, as MQTTPacket_Factory does from its socket, the body by MQTTPacket_publish, _ack or _suback, and the packet is freed. ns of
 * processor time a frame. Its allocations go through its own heap, which keeps a tree of them under a lock. oracle/peers builds it. */
#include <stdio.h>
#include <stdlib.h>
#include <string.h>
#include <time.h>

void *MQTTPacket_publish(int version, unsigned char header, char *data, size_t len);
void MQTTPacket_freePublish(void *pack);
void *MQTTPacket_ack(int version, unsigned char header, char *data, size_t len);
void MQTTPacket_freeAck(void *pack);
void *MQTTPacket_suback(int version, unsigned char header, char *data, size_t len);
void MQTTPacket_freeSuback(void *pack);
int Heap_initialize(void);

static double now(void)
{
    struct timespec t;
    clock_gettime(CLOCK_THREAD_CPUTIME_ID, &t);
    return (double)t.tv_sec * 1e9 + (double)t.tv_nsec;
}

static int by_value(const void *a, const void *b)
{
    double x = *(const double *)a, y = *(const double *)b;
    return (x > y) - (x < y);
}

/* the body of one frame: 1 if it was read */
static int body(unsigned char first, char *s, size_t len)
{
    void *pack;
    switch (first >> 4) {
    case 3:
        if ((pack = MQTTPacket_publish(5, first, s, len)))
            MQTTPacket_freePublish(pack);
        break;
    case 9:
        if ((pack = MQTTPacket_suback(5, first, s, len)))
            MQTTPacket_freeSuback(pack);
        break;
    default:
        if ((pack = MQTTPacket_ack(5, first, s, len)))
            MQTTPacket_freeAck(pack);
    }
    return pack != NULL;
}

int main(int argc, char **argv)
{
    if (argc != 3)
        return 2;
    FILE *f = fopen(argv[1], "rb");
    if (!f)
        return 2;
    fseek(f, 0, SEEK_END);
    size_t len = (size_t)ftell(f);
    rewind(f);
    char *s = malloc(len);
    if (!s || fread(s, 1, len, f) != len)
        return 2;
    Heap_initialize();
    int rounds = atoi(argv[2]), items = 100000;
    double *times = malloc(sizeof *times * (size_t)rounds);
    for (int r = 0; r < rounds; r++) {
        size_t at = 0;
        int frames = 0;
        double start = now();
        while (at < len) {
            unsigned char first = (unsigned char)s[at++], b;
            size_t n = 0, unit = 1;
            do {
                b = (unsigned char)s[at++];
                n += (b & 127) * unit;
                unit *= 128;
            } while (b & 128);
            if (!body(first, s + at, n))
                return 1;
            at += n;
            frames++;
        }
        times[r] = (now() - start) / items;
        if (frames != items)
            return 1;
    }
    qsort(times, (size_t)rounds, sizeof *times, by_value);
    const char *name = strrchr(argv[1], '/');
    printf("paho %s %.1f\n", name ? name + 1 : argv[1], times[rounds / 2]);
    return 0;
}
