// What the twins of the word calls share: a channel's forms, raw words, and the words that are measured.
#include <stdbool.h>
#include <stdint.h>
#include <string.h>

enum { NARROW = 6, PEDESTAL = 1000, ESCAPED_ONE_IN = 2000 };

typedef struct {
    uint64_t bits;
    uint32_t len;
} Form;

// A channel: reduced binary, with or without delta.
typedef struct {
    bool delta;
    uint32_t narrow;
    uint32_t pedestal;
} Channel;

// The form of a word behind another.
static inline Form encode(Channel c, uint32_t before, uint32_t word) {
    uint32_t coded = c.delta ? (word - before) & 0xffff : word;
    uint64_t ones = (UINT64_C(1) << c.narrow) - 1;
    uint64_t above = (coded - c.pedestal) & 0xffff;
    if (above < ones)
        return (Form){above, c.narrow};
    return (Form){(uint64_t)coded << c.narrow | ones, c.narrow + 16};
}

static inline uint32_t raw_word(const uint8_t *raw, size_t index) {
    uint16_t word;
    memcpy(&word, raw + 2 * index, 2);
    return word;
}

static uint64_t next(uint64_t *state) {
    *state ^= *state << 13;
    *state ^= *state >> 7;
    *state ^= *state << 17;
    return *state;
}

// Noise above the pedestal, and one word in so many that needs its whole width; under delta the noise is in the differences.
static void make(uint32_t delta, uint8_t *raw, size_t count) {
    uint64_t state = 0x9e3779b97f4a7c15;
    uint32_t before = 0;
    for (size_t i = 0; i < count; i++) {
        uint32_t above = next(&state) % ESCAPED_ONE_IN == 0 ? 40000 : (uint32_t)(next(&state) >> 32) % ((1 << NARROW) - 1);
        uint32_t word = (PEDESTAL + above + (delta ? before : 0)) & 0xffff;
        raw[2 * i] = (uint8_t)word;
        raw[2 * i + 1] = (uint8_t)(word >> 8);
        before = word;
    }
}
