/* The program of bench/record_cost: sorts, checksums and hashes as many numbers as it is asked for.
   clang --target=wasm32 -O2 -ffreestanding -fno-builtin -nostdlib -Wl,--no-entry -Wl,--strip-all -o record_work.wasm record_work.c */
#include <stdint.h>

#define MOST (1 << 18)
#define SLOTS (1 << 19)

static uint32_t numbers[MOST], spare[MOST], slots[SLOTS], table[256];

static void make_table(void) {
    for (uint32_t i = 0; i < 256; i++) {
        uint32_t c = i;
        for (int k = 0; k < 8; k++) c = c & 1 ? 0xedb88320 ^ (c >> 1) : c >> 1;
        table[i] = c;
    }
}

static uint32_t checksum(const unsigned char *bytes, uint32_t count) {
    uint32_t c = ~0u;
    while (count--) c = table[(c ^ *bytes++) & 255] ^ (c >> 8);
    return ~c;
}

static __attribute__((noinline)) int before(const uint32_t *one, const uint32_t *other) {
    return *one <= *other;
}

static void sort(uint32_t *from, uint32_t *to, uint32_t count) {
    for (uint32_t width = 1; width < count; width *= 2) {
        for (uint32_t left = 0; left < count; left += 2 * width) {
            uint32_t middle = left + width < count ? left + width : count;
            uint32_t right = left + 2 * width < count ? left + 2 * width : count;
            for (uint32_t i = left, j = middle, k = left; k < right; k++) {
                to[k] = i < middle && (j >= right || before(&from[i], &from[j])) ? from[i++] : from[j++];
            }
        }
        uint32_t *other = from;
        from = to;
        to = other;
    }
}

static uint32_t collisions(uint32_t count) {
    uint32_t found = 0;
    for (uint32_t i = 0; i < SLOTS; i++) slots[i] = 0;
    for (uint32_t i = 0; i < count; i++) {
        uint32_t k = numbers[i] * 2654435761u >> 13;
        while (slots[k]) k = (k + 1) & (SLOTS - 1), found++;
        slots[k] = numbers[i] | 1;
    }
    return found;
}

__attribute__((export_name("work"))) uint32_t work(uint32_t count, uint32_t seed) {
    make_table();
    for (uint32_t i = 0; i < count; i++) numbers[i] = seed = seed * 1664525 + 1013904223;
    sort(numbers, spare, count);
    return checksum((const unsigned char *)numbers, 4 * count) + collisions(count);
}
