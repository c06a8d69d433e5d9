// A host program: packs a list of words, with and without delta, reads them back, and tries what is refused.
#include "slim_blocks.h"

#include <inttypes.h>
#include <stdbool.h>
#include <stdio.h>
#include <string.h>

enum { WORDS = 1000, RAW = 2 * WORDS, ROOM = 4 * WORDS, PEDESTAL = 1000, NARROW = 6, NOISE = 31, UNTOUCHED = 0xa5 };

// Differences from -31 on are packed short.
enum { LEAST_DIFFERENCE = 65536 - 31 };

// Noise above the pedestal, and a few words that are none.
static void make_words(uint8_t *raw) {
    uint32_t state = 1;
    for (size_t i = 0; i < WORDS; i++) {
        state = state * 1664525 + 1013904223;
        uint32_t word = PEDESTAL + (state >> 16) % NOISE;
        if (i % 300 == 299)
            word = 60000 + (uint32_t)i;
        raw[2 * i] = (uint8_t)word;
        raw[2 * i + 1] = (uint8_t)(word >> 8);
    }
}

static bool untouched(const uint8_t *part, size_t size) {
    for (size_t i = 0; i < size; i++)
        if (part[i] != UNTOUCHED)
            return false;
    return true;
}

static const char *yes(bool b) {
    return b ? "yes" : "no";
}

// Packs the words, reads them back and compares.
static bool there_and_back(uint32_t delta, uint32_t pedestal, const uint8_t *raw) {
    static uint8_t block[ROOM], back[ROOM];
    memset(block, UNTOUCHED, ROOM);
    memset(back, UNTOUCHED, ROOM);

    int64_t bits = slim_pack(delta, NARROW, pedestal, raw, RAW, block, ROOM);
    if (bits < 0) {
        printf("  packing: fault %" PRId64 "\n", -bits);
        return false;
    }
    size_t size = ((size_t)bits + 7) / 8;
    printf("  packed: %d words, %d bytes, into %" PRId64 " bits, %zu bytes\n", WORDS, RAW, bits, size);
    printf("  first bytes: %02x %02x %02x %02x\n", block[0], block[1], block[2], block[3]);

    int64_t words = slim_read(delta, NARROW, pedestal, block, size, WORDS, back, ROOM);
    if (words < 0) {
        printf("  reading: fault %" PRId64 "\n", -words);
        return false;
    }
    bool same = memcmp(raw, back, RAW) == 0;
    bool rest = untouched(block + size, ROOM - size) && untouched(back + RAW, ROOM - RAW);
    printf("  read: %" PRId64 " words; the same: %s; bytes past the results as before: %s\n", words, yes(same), yes(rest));
    return same && rest;
}

// An answer that has to be a fault, with nothing written.
static bool refused(const char *what, int64_t answer, int64_t expected, const uint8_t *out, size_t size) {
    bool kept = untouched(out, size);
    printf("  %s: %" PRId64 "; output as before: %s\n", what, answer, yes(kept));
    return answer == expected && kept;
}

int main(void) {
    static uint8_t raw[RAW], out[ROOM];
    make_words(raw);
    memset(out, UNTOUCHED, ROOM);

    printf("without delta\n");
    bool good = there_and_back(0, PEDESTAL, raw);
    printf("with delta\n");
    good &= there_and_back(1, LEAST_DIFFERENCE, raw);
    printf("refused\n");
    good &= refused("short forms of 17 bits", slim_pack(0, 17, PEDESTAL, raw, RAW, out, ROOM), -SLIM_BAD_SETTING, out, ROOM);
    good &= refused("an output of 100 bytes", slim_pack(0, NARROW, PEDESTAL, raw, RAW, out, 100), -SLIM_OUTPUT_TOO_SHORT, out, ROOM);
    printf("%s\n", good ? "all as expected" : "NOT as expected");
    return good ? 0 : 1;
}
