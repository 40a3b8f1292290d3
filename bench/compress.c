// A compressor in the manner of LZSS. It reads its standard input, finds for each place the longest text that has
// been before by chains of places with equal hashes, writes literal bytes and references, decompresses what it has
// written, and compares. It does so with more and more tries, and prints the sizes and a checksum for each.
#include "wasi.h"

enum { MOST_INPUT = 65536, WINDOW = 4096, SHORTEST = 3, LONGEST = 66, HASHES = 1024, MOST_TRIES = 128 };

static byte input[MOST_INPUT];
static byte packed[MOST_INPUT + MOST_INPUT / 8 + 8];
static byte unpacked[MOST_INPUT];
static u32 newest[HASHES];
static u32 older[WINDOW];
static int most_tries;

typedef struct {
    u32 length, distance;
} match;

static u32 hash_of(const byte *at) {
    return (at[0] * 33u * 33u + at[1] * 33u + at[2]) % HASHES;
}

// Places are kept as their number and one, so that 0 is none.
static void remember(u32 place, u32 length) {
    if (place + SHORTEST > length) {
        return;
    }
    u32 hash = hash_of(input + place);
    older[place % WINDOW] = newest[hash];
    newest[hash] = place + 1;
}

static u32 common(u32 one, u32 other, u32 most) {
    u32 length = 0;
    while (length < most && input[one + length] == input[other + length]) {
        length++;
    }
    return length;
}

static match longest(u32 place, u32 length) {
    match best = { 0, 0 };
    u32 most = length - place < LONGEST ? length - place : LONGEST;
    if (most < SHORTEST) {
        return best;
    }
    u32 candidate = newest[hash_of(input + place)];
    for (int tries = 0; tries < most_tries && candidate != 0; tries++) {
        u32 at = candidate - 1;
        if (place - at >= WINDOW) {
            break;
        }
        u32 found = common(at, place, most);
        if (found > best.length) {
            best.length = found;
            best.distance = place - at;
        }
        candidate = older[at % WINDOW];
    }
    return best;
}

// A group is one byte of marks and eight items: a literal byte, or two bytes of a distance and one of a length.
static u32 compress(u32 length) {
    u32 out = 0, marks = 0, items = 8;
    __builtin_memset(newest, 0, sizeof newest);
    for (u32 place = 0; place < length;) {
        if (items == 8) {
            marks = out++;
            packed[marks] = 0;
            items = 0;
        }
        match found = longest(place, length);
        u32 step = 1;
        if (found.length >= SHORTEST) {
            packed[marks] |= (byte)(1 << items);
            packed[out++] = (byte)found.distance;
            packed[out++] = (byte)(found.distance >> 8);
            packed[out++] = (byte)(found.length - SHORTEST);
            step = found.length;
        } else {
            packed[out++] = input[place];
        }
        items++;
        for (u32 next = place + step; place < next; place++) {
            remember(place, length);
        }
    }
    return out;
}

static u32 decompress(u32 length) {
    u32 out = 0, marks = 0, items = 8;
    for (u32 at = 0; at < length;) {
        if (items == 8) {
            marks = packed[at++];
            items = 0;
            continue;
        }
        if (marks >> items & 1) {
            u32 distance = packed[at] | (u32)packed[at + 1] << 8;
            u32 count = packed[at + 2] + SHORTEST;
            at += 3;
            for (; count > 0; count--, out++) {
                unpacked[out] = unpacked[out - distance];
            }
        } else {
            unpacked[out++] = packed[at++];
        }
        items++;
    }
    return out;
}

static u32 checksum(const byte *at, u32 length) {
    u32 sum = 2166136261u;
    for (u32 place = 0; place < length; place++) {
        sum = (sum ^ at[place]) * 16777619u;
    }
    return sum;
}

__attribute__((export_name("_start"))) void start(void) {
    u32 length = read_all(INPUT, input, MOST_INPUT);
    for (most_tries = 1; most_tries <= MOST_TRIES; most_tries *= 2) {
        u32 size = compress(length);
        u32 back = decompress(size);
        print_number(length);
        print(" bytes in ");
        print_number(size);
        print(", checksum ");
        print_hex(checksum(packed, size));
        print("\n");
        if (back != length || checksum(unpacked, back) != checksum(input, length)) {
            print("what was decompressed is another text\n");
            proc_exit(1);
        }
    }
}
