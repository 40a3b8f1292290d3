// Keeps the levels of channels in order of their totals. The host gives blocks of samples, three bytes
// each: a channel and a change of 16 bits. What is left of a block is moved to the front of the buffer
// and the rest of it cleared; an entry whose total changes is taken out and put in at its new place, by
// moves within the table. While it gives a block, the host may drop a channel. At the end the entries go
// back to the host.
//
// Compiled by clang and lld 22.1.8 with their default features, to which sign extension and bulk memory
// belong: clang-22 --target=wasm32 -O2 -nostdlib -Wl,--no-entry -Wl,--strip-all -o channels.wasm channels.c
typedef unsigned char byte;
typedef struct { short total; signed char level; byte channel; } entry;

__attribute__((import_module("env"), import_name("read"))) int read_block(byte *to, int most);
__attribute__((import_module("env"), import_name("write"))) void write_entries(const entry *from, int bytes);

static byte buffer[8];
static entry entries[4];
static int count;

static int find(byte channel) {
    int at = 0;
    while (at < count && entries[at].channel != channel) {
        at++;
    }
    return at;
}

static void take_out(int at) {
    count--;
    __builtin_memmove(&entries[at], &entries[at + 1], (count - at) * sizeof(entry));
    __builtin_memset(&entries[count], 0, sizeof(entry));
}

static void put_in(entry new) {
    int at = 0;
    while (at < count && entries[at].total <= new.total) {
        at++;
    }
    __builtin_memmove(&entries[at + 1], &entries[at], (count - at) * sizeof(entry));
    entries[at] = new;
    count++;
}

static void sample(byte channel, short change) {
    entry new = { 0, 0, channel };
    int at = find(channel);
    if (at < count) {
        new = entries[at];
        take_out(at);
    } else if (count == 4) {
        take_out(0);
    }
    new.level = (signed char)(new.level + change);
    new.total = (short)(new.total * 3 + new.level);
    put_in(new);
}

__attribute__((export_name("drop"))) void drop(int channel) {
    int at = find((byte)channel);
    if (at < count) {
        take_out(at);
    }
}

__attribute__((export_name("run"))) int run(void) {
    int held = 0;
    for (;;) {
        int got = read_block(buffer + held, (int)sizeof buffer - held);
        if (got <= 0) {
            break;
        }
        held += got;
        int at = 0;
        while (held - at >= 3) {
            sample(buffer[at], (short)(buffer[at + 1] | buffer[at + 2] << 8));
            at += 3;
        }
        held -= at;
        __builtin_memmove(buffer, buffer + at, held);
        __builtin_memset(buffer + held, 0, sizeof buffer - held);
    }
    write_entries(entries, count * (int)sizeof(entry));
    return count;
}
