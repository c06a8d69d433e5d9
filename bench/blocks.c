// Blocks of 16-bit words, packed and read back: the proved calls against a C twin of the same method.
#include "slim_blocks.h"
#include "twin.h"
#include "channel.h"

#include <inttypes.h>
#include <stdio.h>
#include <stdlib.h>

enum { COUNT = SLIM_MOST_WORDS, RAW = 2 * COUNT, ROOM = 4 * COUNT, ROUNDS = 500 };

// ---- the twin

// The length of the form at the front of a window, and its word: a negated fault where there is none.
static inline int32_t decode(Channel c, uint32_t before, Window window, uint32_t *word) {
    if (window.len < c.narrow)
        return -11;
    uint64_t ones = (UINT64_C(1) << c.narrow) - 1;
    uint64_t above = window.bits & ones;
    uint32_t coded = ((uint32_t)above + c.pedestal) & 0xffff;
    uint32_t len = c.narrow;
    if (above == ones) {
        len += 16;
        if (window.len < len)
            return -11;
        coded = window.bits >> c.narrow & 0xffff;
        if (((coded - c.pedestal) & 0xffff) < ones)
            return -16;
    }
    *word = c.delta ? (coded + before) & 0xffff : coded;
    return (int32_t)len;
}

static inline __attribute__((always_inline)) int64_t pack(Channel c, const uint8_t *raw, size_t raw_size, uint8_t *out, size_t out_size) {
    if (raw_size % 2 != 0)
        return -13;
    size_t count = raw_size / 2;
    if (count > COUNT)
        return -9;
    size_t len = 0;
    uint32_t before = 0;
    for (size_t i = 0; i < count; i++) {
        uint32_t word = raw_word(raw, i);
        len += encode(c, before, word).len;
        before = word;
    }
    if ((len + 7) / 8 > out_size)
        return -2;
    Accumulator waiting = {0, 0, 0};
    before = 0;
    for (size_t i = 0; i < count; i++) {
        uint32_t word = raw_word(raw, i);
        Form form = encode(c, before, word);
        push(&waiting, out, out_size, form.bits, form.len);
        before = word;
    }
    push(&waiting, out, out_size, 0, (8 - len % 8) % 8);
    finish(waiting, out, out_size);
    return (int64_t)len;
}

static inline __attribute__((always_inline)) int64_t unpack(Channel c, const uint8_t *block, size_t size, size_t count, uint8_t *out, size_t out_size) {
    if (count > COUNT)
        return -9;
    if (2 * count > out_size)
        return -2;
    size_t at = 0;
    uint32_t word = 0;
    for (size_t i = 0; i < count; i++) {
        int32_t len = decode(c, word, window_at(block, size, at), &word);
        if (len < 0)
            return len;
        at += (uint32_t)len;
    }
    if ((at + 7) / 8 < size)
        return -18;
    at = 0;
    word = 0;
    for (size_t i = 0; i < count; i++) {
        int32_t len = decode(c, word, window_at(block, size, at), &word);
        if (len < 0)
            break;
        uint16_t raw = (uint16_t)word;
        memcpy(out + 2 * i, &raw, 2);
        at += (uint32_t)len;
    }
    return (int64_t)count;
}

static bool is_set(uint32_t delta, uint32_t narrow, uint32_t pedestal) {
    return narrow >= 1 && narrow <= 16 && pedestal < 65536 && delta <= 1;
}

static __attribute__((noipa)) int64_t twin_pack(uint32_t delta, uint32_t narrow, uint32_t pedestal, const uint8_t *raw, size_t raw_size, uint8_t *out, size_t out_size) {
    if (!is_set(delta, narrow, pedestal))
        return -6;
    return delta ? pack((Channel){true, narrow, pedestal}, raw, raw_size, out, out_size)
                 : pack((Channel){false, narrow, pedestal}, raw, raw_size, out, out_size);
}

static __attribute__((noipa)) int64_t twin_read(uint32_t delta, uint32_t narrow, uint32_t pedestal, const uint8_t *block, size_t block_size, size_t count, uint8_t *out, size_t out_size) {
    if (!is_set(delta, narrow, pedestal))
        return -6;
    return delta ? unpack((Channel){true, narrow, pedestal}, block, block_size, count, out, out_size)
                 : unpack((Channel){false, narrow, pedestal}, block, block_size, count, out, out_size);
}

// ---- the measurement

static void agree(bool same, const char *what, uint32_t delta) {
    if (!same) {
        printf("%s, delta %" PRIu32 ": ours and the twin's differ\n", what, delta);
        exit(1);
    }
}

static void row(const char *what, uint32_t delta, double ours, double twin) {
    printf("%-5s %-13s %10.2f %10.2f %8.2f\n", what, delta ? "with delta" : "without delta", ours / COUNT, twin / COUNT, twin / ours);
}

// The same answers and outputs, of what can be done and of what is refused.
static void compare(const uint8_t *input, uint8_t *ours, uint8_t *twin) {
    static const uint32_t settings[][3] = {{2, 6, 1000}, {0, 0, 1000}, {1, 17, 1000}, {1, 6, 65536}, {0, 6, 1000}, {1, 1, 65535}, {0, 5, 65530}};
    static const size_t sizes[] = {0, 2, 3, 10, 1000, RAW, RAW + 1, RAW + 2};
    static const size_t counts[] = {0, 1, 4, 300, COUNT + 1};
    static const size_t rooms[] = {0, 1, 9, 600, ROOM};
    for (size_t s = 0; s < sizeof settings / sizeof *settings; s++)
        for (size_t k = 0; k < sizeof sizes / sizeof *sizes; k++)
            for (size_t r = 0; r < sizeof rooms / sizeof *rooms; r++) {
                uint32_t delta = settings[s][0], narrow = settings[s][1], pedestal = settings[s][2];
                memset(ours, 0xa5, ROOM);
                memset(twin, 0xa5, ROOM);
                int64_t mine = slim_pack(delta, narrow, pedestal, input, sizes[k], ours, rooms[r]);
                int64_t its = twin_pack(delta, narrow, pedestal, input, sizes[k], twin, rooms[r]);
                agree(mine == its && memcmp(ours, twin, ROOM) == 0, "packing", delta);
                for (size_t c = 0; c < sizeof counts / sizeof *counts; c++) {
                    mine = slim_read(delta, narrow, pedestal, input, sizes[k], counts[c], ours, rooms[r]);
                    its = twin_read(delta, narrow, pedestal, input, sizes[k], counts[c], twin, rooms[r]);
                    agree(mine == its && memcmp(ours, twin, ROOM) == 0, "reading", delta);
                }
            }
}

int main(void) {
    static uint8_t raw[RAW + 2], block[2][ROOM], back[2][ROOM];
    printf("%-19s %10s %10s %8s\n", "ns per word", "ours", "twin", "speed");
    for (uint32_t delta = 0; delta <= 1; delta++) {
        memset(raw, 0xff, RAW + 2);
        compare(raw, block[0], block[1]);
        make(delta, raw, COUNT);
        compare(raw, block[0], block[1]);
        double pack[2] = {1e18, 1e18}, read[2] = {1e18, 1e18};
        for (int round = 0; round < ROUNDS; round++) {
            for (int k = 0; k < 2; k++) {
                memset(block[k], 0xff, ROOM);
                memset(back[k], 0xff, ROOM);
            }
            double t0 = nanoseconds();
            int64_t mine = slim_pack(delta, NARROW, PEDESTAL, raw, RAW, block[0], ROOM);
            double t1 = nanoseconds();
            int64_t its = twin_pack(delta, NARROW, PEDESTAL, raw, RAW, block[1], ROOM);
            double t2 = nanoseconds();
            agree(mine > 0 && mine == its && memcmp(block[0], block[1], ROOM) == 0, "blocks", delta);
            size_t size = ((size_t)mine + 7) / 8;
            double t3 = nanoseconds();
            mine = slim_read(delta, NARROW, PEDESTAL, block[0], size, COUNT, back[0], ROOM);
            double t4 = nanoseconds();
            its = twin_read(delta, NARROW, PEDESTAL, block[0], size, COUNT, back[1], ROOM);
            double t5 = nanoseconds();
            agree(mine == COUNT && its == COUNT && memcmp(back[0], back[1], ROOM) == 0 && memcmp(back[0], raw, RAW) == 0, "words", delta);
            keep_least(&pack[0], t1 - t0);
            keep_least(&pack[1], t2 - t1);
            keep_least(&read[0], t4 - t3);
            keep_least(&read[1], t5 - t4);
        }
        row("pack", delta, pack[0], pack[1]);
        row("read", delta, read[0], read[1]);
    }
    return 0;
}
