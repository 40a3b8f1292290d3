// Counts the bytes of each block of 1,024 bytes that the host writes, sorts the counts a little, and mixes all of it
// into one number. `bench/measure --aims` makes the script. With ALONE the program writes the blocks itself.
#define BLOCK 1024
#define KINDS 256
#define REACH 8

#ifdef ALONE
static void block(unsigned char *to) {
    static unsigned seed = 1;
    for (int at = 0; at < BLOCK; at++) {
        seed = seed * 1103515245u + 12345u;
        to[at] = seed >> 20;
    }
}
#else
__attribute__((import_module("host"), import_name("block"))) void block(unsigned char *to);
#endif

static unsigned char bytes[BLOCK];
static unsigned counts[KINDS];
static unsigned keys[KINDS];

static unsigned mix(unsigned sum, unsigned word) {
    sum ^= word;
    sum *= 0x01000193;
    return sum ^ (sum >> 15);
}

/** Moves each key to the front past greater ones, by at most REACH places. */
static void sort(void) {
    for (int at = 1; at < KINDS; at++) {
        unsigned key = keys[at];
        int place = at;
        while (place > 0 && keys[place - 1] > key && at - place < REACH) {
            keys[place] = keys[place - 1];
            place--;
        }
        keys[place] = key;
    }
}

__attribute__((export_name("run"))) unsigned run(unsigned blocks) {
    unsigned sum = 0x811c9dc5;
    for (unsigned number = 0; number < blocks; number++) {
        block(bytes);
        for (int kind = 0; kind < KINDS; kind++) counts[kind] = 0;
        for (int at = 0; at < BLOCK; at++) counts[bytes[at]]++;
        for (int at = 0; at < BLOCK; at++) sum = mix(sum, bytes[at] + counts[at & 255]);
        for (int kind = 0; kind < KINDS; kind++) keys[kind] = counts[kind] * 256 + kind;
        sort();
        for (int kind = 0; kind < KINDS; kind++) sum = mix(sum, keys[kind]);
    }
    return sum;
}
