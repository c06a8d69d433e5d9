// What the twins share: fields in a buffer by the method of the proved code, and the clock.
#include <stdbool.h>
#include <stdint.h>
#include <string.h>
#include <time.h>

typedef struct {
    size_t place;
    uint64_t word;
    uint32_t have;
} Accumulator;

typedef struct {
    uint64_t bits;
    uint32_t len;
} Window;

static uint64_t low(uint64_t value, uint32_t count) {
    return count >= 64 ? value : value & ((UINT64_C(1) << count) - 1);
}

static bool reaches(size_t place, uint32_t count, size_t size) {
    if (place > size)
        return false;
    size_t rest = size - place;
    return rest > 0xffffffff || count <= 8 * rest;
}

static inline bool push(Accumulator *a, uint8_t *buffer, size_t size, uint64_t value, uint32_t count) {
    if (count > 64 || !reaches(a->place, a->have + count, size))
        return false;
    uint64_t new = low(value, count);
    uint64_t word = a->word | new << a->have;
    uint32_t have = a->have + count;
    if (have < 64) {
        a->word = word;
        a->have = have;
        return true;
    }
    memcpy(buffer + a->place, &word, 8);
    uint32_t left = have - 64;
    a->place += 8;
    a->word = left == 0 ? 0 : new >> (count - left);
    a->have = left;
    return true;
}

static bool finish(Accumulator a, uint8_t *buffer, size_t size) {
    if (!reaches(a.place, a.have, size))
        return false;
    for (; a.have >= 8; a.have -= 8, a.word >>= 8)
        buffer[a.place++] = (uint8_t)a.word;
    if (a.have > 0)
        buffer[a.place] = (uint8_t)(buffer[a.place] >> a.have << a.have | a.word);
    return true;
}

static uint64_t by_bytes(const uint8_t *file, size_t size, size_t at) {
    uint64_t word = 0;
    for (unsigned k = 0; k < 64; k++)
        if ((at + k) / 8 < size)
            word |= (uint64_t)(file[(at + k) / 8] >> (at + k) % 8 & 1) << k;
    return word;
}

static inline Window window_at(const uint8_t *file, size_t size, size_t at) {
    size_t p = at / 8;
    unsigned shift = at % 8;
    Window window = {0, 0};
    if (p + 9 <= size) {
        uint64_t word;
        memcpy(&word, file + p, 8);
        window.bits = word >> shift | (uint64_t)file[p + 8] << 1 << (63 - shift);
        window.len = 64;
    } else if (p < size) {
        size_t rest = 8 * (size - p) - shift;
        window.bits = by_bytes(file, size, at);
        window.len = rest < 64 ? (uint32_t)rest : 64;
    }
    return window;
}

static double nanoseconds(void) {
    struct timespec t;
    clock_gettime(CLOCK_MONOTONIC, &t);
    return (double)t.tv_sec * 1e9 + (double)t.tv_nsec;
}

static void keep_least(double *best, double time) {
    if (time < *best)
        *best = time;
}
