// SHA-256 (FIPS 180-4) of the files that its words name: it opens each one, reads it in blocks of 512 bytes, and
// prints the digest. Then it hashes the digests many times, as a slow hash of a password does.
#include "wasi.h"

typedef unsigned long long u64;

WASI(args_sizes_get) int args_sizes_get(u32 *count, u32 *bytes);
WASI(args_get) int args_get(char **words, char *bytes);
WASI(path_open)
int path_open(int folder, int flags, const char *path, u32 length, int open_flags, u64 rights, u64 inherited,
              int file_flags, int *file);
WASI(fd_close) int fd_close(int file);

enum { FOLDER = 3, FOLLOW = 1, BLOCK = 64, ROUNDS = 600, MOST_WORDS = 8, MOST_BYTES = 256 };
static const u64 READ = 2;

static const u32 constants[64] = {
    0x428a2f98, 0x71374491, 0xb5c0fbcf, 0xe9b5dba5, 0x3956c25b, 0x59f111f1, 0x923f82a4, 0xab1c5ed5, 0xd807aa98,
    0x12835b01, 0x243185be, 0x550c7dc3, 0x72be5d74, 0x80deb1fe, 0x9bdc06a7, 0xc19bf174, 0xe49b69c1, 0xefbe4786,
    0x0fc19dc6, 0x240ca1cc, 0x2de92c6f, 0x4a7484aa, 0x5cb0a9dc, 0x76f988da, 0x983e5152, 0xa831c66d, 0xb00327c8,
    0xbf597fc7, 0xc6e00bf3, 0xd5a79147, 0x06ca6351, 0x14292967, 0x27b70a85, 0x2e1b2138, 0x4d2c6dfc, 0x53380d13,
    0x650a7354, 0x766a0abb, 0x81c2c92e, 0x92722c85, 0xa2bfe8a1, 0xa81a664b, 0xc24b8b70, 0xc76c51a3, 0xd192e819,
    0xd6990624, 0xf40e3585, 0x106aa070, 0x19a4c116, 0x1e376c08, 0x2748774c, 0x34b0bcb5, 0x391c0cb3, 0x4ed8aa4a,
    0x5b9cca4f, 0x682e6ff3, 0x748f82ee, 0x78a5636f, 0x84c87814, 0x8cc70208, 0x90befffa, 0xa4506ceb, 0xbef9a3f7,
    0xc67178f2,
};
static const u32 first[8] = {
    0x6a09e667, 0xbb67ae85, 0x3c6ef372, 0xa54ff53a, 0x510e527f, 0x9b05688c, 0x1f83d9ab, 0x5be0cd19,
};

typedef struct {
    u32 state[8];
    byte block[BLOCK];
    u32 held, length;
} hash;

static u32 turned(u32 word, int bits) {
    return word >> bits | word << (32 - bits);
}

static void take_block(hash *to) {
    u32 words[64], s[8];
    for (int at = 0; at < 16; at++) {
        const byte *b = to->block + 4 * at;
        words[at] = (u32)b[0] << 24 | (u32)b[1] << 16 | (u32)b[2] << 8 | b[3];
    }
    for (int at = 16; at < 64; at++) {
        u32 x = words[at - 15], y = words[at - 2];
        words[at] = words[at - 16] + (turned(x, 7) ^ turned(x, 18) ^ x >> 3) + words[at - 7]
                    + (turned(y, 17) ^ turned(y, 19) ^ y >> 10);
    }
    for (int at = 0; at < 8; at++) {
        s[at] = to->state[at];
    }
    for (int at = 0; at < 64; at++) {
        u32 e = turned(s[4], 6) ^ turned(s[4], 11) ^ turned(s[4], 25);
        u32 one = s[7] + e + ((s[4] & s[5]) ^ (~s[4] & s[6])) + constants[at] + words[at];
        u32 a = turned(s[0], 2) ^ turned(s[0], 13) ^ turned(s[0], 22);
        u32 two = a + ((s[0] & s[1]) ^ (s[0] & s[2]) ^ (s[1] & s[2]));
        for (int place = 7; place > 0; place--) {
            s[place] = s[place - 1];
        }
        s[4] += one;
        s[0] = one + two;
    }
    for (int at = 0; at < 8; at++) {
        to->state[at] += s[at];
    }
}

static void begin(hash *to) {
    for (int at = 0; at < 8; at++) {
        to->state[at] = first[at];
    }
    to->held = to->length = 0;
}

static void take(hash *to, const byte *bytes, u32 count) {
    to->length += count;
    for (u32 at = 0; at < count; at++) {
        to->block[to->held++] = bytes[at];
        if (to->held == BLOCK) {
            take_block(to);
            to->held = 0;
        }
    }
}

static void end(hash *to, byte digest[32]) {
    static const byte one = 0x80, zero = 0;
    u32 bits = to->length * 8;
    take(to, &one, 1);
    while (to->held != 60) {
        take(to, &zero, 1);
    }
    byte last[4] = { (byte)(bits >> 24), (byte)(bits >> 16), (byte)(bits >> 8), (byte)bits };
    take(to, last, 4);
    for (int at = 0; at < 32; at++) {
        digest[at] = (byte)(to->state[at / 4] >> (24 - 8 * (at % 4)));
    }
}

static void print_digest(const byte digest[32], const char *name) {
    for (int at = 0; at < 32; at += 4) {
        print_hex((u32)digest[at] << 24 | (u32)digest[at + 1] << 16 | (u32)digest[at + 2] << 8 | digest[at + 3]);
    }
    print("  ");
    print(name);
    print("\n");
}

static u32 length_of(const char *text) {
    u32 length = 0;
    while (text[length] != 0) {
        length++;
    }
    return length;
}

static void hash_file(const char *name, byte digest[32]) {
    static byte buffer[512];
    int file;
    hash to;
    if (path_open(FOLDER, FOLLOW, name, length_of(name), 0, READ, 0, 0, &file) != 0) {
        print(name);
        print(": not opened\n");
        proc_exit(1);
    }
    begin(&to);
    for (u32 got; (got = read_all(file, buffer, sizeof buffer)) != 0;) {
        take(&to, buffer, got);
    }
    fd_close(file);
    end(&to, digest);
}

__attribute__((export_name("_start"))) void start(void) {
    static char *words[MOST_WORDS];
    static char bytes[MOST_BYTES];
    static byte digest[32];
    u32 count, size;
    hash all;
    args_sizes_get(&count, &size);
    if (count < 2 || count > MOST_WORDS || size > MOST_BYTES) {
        print("hash FILE..\n");
        proc_exit(2);
    }
    args_get(words, bytes);
    begin(&all);
    for (u32 at = 1; at < count; at++) {
        hash_file(words[at], digest);
        print_digest(digest, words[at]);
        take(&all, digest, sizeof digest);
    }
    for (int round = 0; round < ROUNDS; round++) {
        end(&all, digest);
        begin(&all);
        take(&all, digest, sizeof digest);
    }
    print_digest(digest, "all, hashed again");
}
