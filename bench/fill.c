// A section of many 16-bit words filled behind the head of a file: the proved calls against a C twin of the same method.
#include "twin.h"
#include "channel.h"

#include <inttypes.h>
#include <stdio.h>
#include <stdlib.h>

enum { COUNT = 8000000, RAW = 2 * COUNT, ROOM = 8000000, ROUNDS = 12 };
enum { REDUCED = 1, UNSIGNED_16 = 3 };

// The head with stamp 0 and the size flagged, and what stands before a section's words: its raw size, the channel count and the channel's description.
enum { HEAD = 11, DESCRIPTION_BITS = 35, OPENING_BITS = 32 + 24 + DESCRIPTION_BITS };

size_t fill_halves(uint32_t delta, uint32_t turn, uint32_t algorithm, uint32_t narrow, uint32_t value, const uint8_t *raw, size_t raw_size, uint8_t *buffer, size_t size);

// ---- the twin

static bool begin(uint8_t *buffer, size_t size) {
    static const uint8_t head[HEAD] = {0x53, 0x4c, 0, 0, 0, 0, 1, 0, 0, 0, 0};
    if (size < HEAD)
        return false;
    memcpy(buffer, head, HEAD);
    memset(buffer + HEAD, 0, size - HEAD);
    return true;
}

static bool open(Channel c, Accumulator *waiting, uint8_t *buffer, size_t size) {
    uint64_t description = c.delta | REDUCED << 6 | UNSIGNED_16 << 10 | c.pedestal << 14 | (uint64_t)(c.narrow - 1) << 30;
    return reaches(HEAD, OPENING_BITS, size)
        && push(waiting, buffer, size, 0, 32)
        && push(waiting, buffer, size, 1, 24)
        && push(waiting, buffer, size, description, DESCRIPTION_BITS);
}

// How many bits the words take. A section that does not fit, or whose raw bytes end inside a word, is zeroed, and the answer is 0.
static inline __attribute__((always_inline)) size_t fill(Channel c, const uint8_t *raw, size_t raw_size, uint8_t *buffer, size_t size) {
    Accumulator waiting = {HEAD, 0, 0};
    uint32_t before = 0;
    size_t sum = 0;
    if (!open(c, &waiting, buffer, size))
        return 0;
    for (size_t i = 0; i < raw_size / 2; i++) {
        uint32_t word = raw_word(raw, i);
        Form form = encode(c, before, word);
        if (!push(&waiting, buffer, size, form.bits, form.len)) {
            memset(buffer + HEAD, 0, size - HEAD);
            return 0;
        }
        sum += form.len;
        before = word;
    }
    finish(waiting, buffer, size);
    if (raw_size % 2 == 0)
        return sum;
    memset(buffer + HEAD, 0, size - HEAD);
    return 0;
}

static __attribute__((noipa)) size_t twin_fill(uint32_t delta, uint32_t narrow, uint32_t pedestal, const uint8_t *raw, size_t raw_size, uint8_t *buffer, size_t size) {
    if (narrow < 1 || narrow > 16 || pedestal > 65535 || !begin(buffer, size))
        return 0;
    return delta == 1 ? fill((Channel){true, narrow, pedestal}, raw, raw_size, buffer, size)
                      : fill((Channel){false, narrow, pedestal}, raw, raw_size, buffer, size);
}

// ---- the measurement

static void agree(bool same, uint32_t delta) {
    if (!same) {
        printf("delta %" PRIu32 ": ours and the twin's differ\n", delta);
        exit(1);
    }
}

// The same answers and buffers, where head, section and words fit and where they do not.
static void compare(const uint8_t *raw, uint8_t *ours, uint8_t *twin) {
    static const uint32_t settings[][3] = {{0, 0, 1000}, {1, 17, 1000}, {1, 6, 65536}, {0, 6, 1000}, {1, 1, 65535}, {0, 5, 65530}};
    static const size_t sizes[] = {0, 2, 3, 10, 1000, 100000};
    static const size_t rooms[] = {0, 10, 11, 22, 23, 40, 600, 100000};
    for (size_t s = 0; s < sizeof settings / sizeof *settings; s++)
        for (size_t k = 0; k < sizeof sizes / sizeof *sizes; k++)
            for (size_t r = 0; r < sizeof rooms / sizeof *rooms; r++) {
                memset(ours, 0xa5, 100000);
                memset(twin, 0xa5, 100000);
                size_t mine = fill_halves(settings[s][0], 0, REDUCED, settings[s][1], settings[s][2], raw, sizes[k], ours, rooms[r]);
                size_t its = twin_fill(settings[s][0], settings[s][1], settings[s][2], raw, sizes[k], twin, rooms[r]);
                agree(mine == its && memcmp(ours, twin, 100000) == 0, settings[s][0]);
            }
}

int main(void) {
    static uint8_t raw[RAW], ours[ROOM], twin[ROOM];
    printf("%-19s %10s %10s %8s\n", "ns per word", "ours", "twin", "speed");
    for (uint32_t delta = 0; delta <= 1; delta++) {
        make(delta, raw, COUNT);
        compare(raw, ours, twin);
        double best[2] = {1e18, 1e18};
        for (int round = 0; round < ROUNDS; round++) {
            memset(ours, 0xff, ROOM);
            memset(twin, 0xff, ROOM);
            double t0 = nanoseconds();
            size_t mine = fill_halves(delta, 0, REDUCED, NARROW, PEDESTAL, raw, RAW, ours, ROOM);
            double t1 = nanoseconds();
            size_t its = twin_fill(delta, NARROW, PEDESTAL, raw, RAW, twin, ROOM);
            double t2 = nanoseconds();
            agree(mine > 0 && mine == its && memcmp(ours, twin, ROOM) == 0, delta);
            keep_least(&best[0], t1 - t0);
            keep_least(&best[1], t2 - t1);
        }
        printf("fill  %-13s %10.2f %10.2f %8.2f\n", delta ? "with delta" : "without delta", best[0] / COUNT, best[1] / COUNT, best[1] / best[0]);
    }
    return 0;
}
