// Fields of one width, packed and read back: the proved functions against a C twin of the same method.
#include "twin.h"

#include <inttypes.h>
#include <stdio.h>
#include <stdlib.h>

// The exports of the crate field_bench: a slice is a pointer and a length.
int64_t fields_pack(uint8_t *buffer, size_t size, size_t count, uint32_t width);
uint64_t fields_checksum(const uint8_t *file, size_t size, size_t count, uint32_t width);

enum { COUNT = 4000000, ROUNDS = 15 };

// ---- the twin

static __attribute__((noipa)) int64_t twin_pack(uint8_t *buffer, size_t size, size_t count, uint32_t width) {
    Accumulator waiting = {0, 0, 0};
    if (width > 64)
        return -1;
    for (size_t i = 0; i < count; i++)
        if (!push(&waiting, buffer, size, i * UINT64_C(0x9e3779b97f4a7c15), width))
            return -1;
    if (!finish(waiting, buffer, size))
        return -1;
    return (int64_t)(count / 8 * width + (count % 8 * width + 7) / 8);
}

static __attribute__((noipa)) uint64_t twin_checksum(const uint8_t *file, size_t size, size_t count, uint32_t width) {
    if (width > 64)
        return 0;
    uint64_t mask = width == 64 ? UINT64_MAX : (UINT64_C(1) << width) - 1;
    size_t at = 0;
    uint64_t sum = 0;
    for (size_t i = 0; i < count; i++) {
        Window window = window_at(file, size, at);
        if (window.len < width)
            return 0;
        sum = (sum << 1 | sum >> 63) ^ (window.bits & mask);
        at = at > SIZE_MAX - width ? SIZE_MAX : at + width;
    }
    return sum;
}

// ---- the measurement

static void agree(bool same, const char *what, uint32_t width) {
    if (!same) {
        printf("%s of %" PRIu32 " bits: ours and the twin's differ\n", what, width);
        exit(1);
    }
}

static void row(const char *what, uint32_t width, double ours, double twin) {
    printf("%-11s %2" PRIu32 " bits %10.2f %10.2f %8.2f\n", what, width, ours / COUNT, twin / COUNT, ours / twin);
}

int main(void) {
    static const uint32_t widths[] = {12, 13, 57};
    size_t size = (size_t)COUNT * 8;
    uint8_t *ours = malloc(size);
    uint8_t *twin = malloc(size);
    if (!ours || !twin)
        return 1;
    memset(ours, 0xff, size);
    memset(twin, 0xff, size);
    printf("%-19s %10s %10s %8s\n", "ns per field", "ours", "twin", "ratio");
    for (size_t k = 0; k < sizeof widths / sizeof *widths; k++) {
        uint32_t width = widths[k];
        double pack[2] = {1e18, 1e18}, read[2] = {1e18, 1e18};
        for (int round = 0; round < ROUNDS; round++) {
            double t0 = nanoseconds();
            int64_t mine = fields_pack(ours, size, COUNT, width);
            double t1 = nanoseconds();
            int64_t its = twin_pack(twin, size, COUNT, width);
            double t2 = nanoseconds();
            agree(mine > 0 && mine == its && memcmp(ours, twin, size) == 0, "files", width);
            size_t used = (size_t)mine;
            double t3 = nanoseconds();
            uint64_t sum = fields_checksum(ours, used, COUNT, width);
            double t4 = nanoseconds();
            uint64_t same = twin_checksum(ours, used, COUNT, width);
            double t5 = nanoseconds();
            agree(sum == same, "checksums", width);
            keep_least(&pack[0], t1 - t0);
            keep_least(&pack[1], t2 - t1);
            keep_least(&read[0], t4 - t3);
            keep_least(&read[1], t5 - t4);
        }
        row("accumulator", width, pack[0], pack[1]);
        row("window", width, read[0], read[1]);
    }
    return 0;
}
