// A B-tree in blocks of 128 bytes that the host keeps. The program holds four blocks; each block has a checksum, which
// is written and tested with it. The host gives the keys in commands: insert, find, or count a range.
#include "wasi.h"

#define HOST(name) __attribute__((import_module("disk"), import_name(#name)))

HOST(read) void disk_read(u32 number, byte *to);
HOST(write) void disk_write(u32 number, const byte *from);
HOST(command) int next_command(u32 *key, u32 *other);
HOST(answer) void answer(u32 number);

enum { BLOCK = 128, HELD = 4, MOST_KEYS = 9, MOST_DEPTH = 16, FREE = 0xffffffff };
enum { STOP, INSERT, FIND, COUNT };

// A block: the keys in order, a value for each, and in an inner block one child more than keys.
typedef struct {
    u32 checksum;
    unsigned short count, inner;
    u32 keys[MOST_KEYS];
    u32 values[MOST_KEYS];
    u32 children[MOST_KEYS + 1];
    u32 unused[2];
} block;
_Static_assert(sizeof(block) == BLOCK, "a block fills its room");

typedef struct {
    block content;
    u32 number, used;
    int changed;
} frame;

static frame frames[HELD];
static u32 clock, block_count, root;

static _Noreturn void fail(void) {
    __builtin_trap();
}

// CRC-32 of all but the checksum itself, bit by bit.
static u32 checksum(const block *of) {
    const byte *bytes = (const byte *)of;
    u32 sum = 0xffffffff;
    for (int at = 4; at < BLOCK; at++) {
        sum ^= bytes[at];
        for (int bit = 0; bit < 8; bit++) {
            sum = sum >> 1 ^ (0xedb88320 & -(sum & 1));
        }
    }
    return ~sum;
}

static void put_back(frame *of) {
    if (of->changed) {
        of->content.checksum = checksum(&of->content);
        disk_write(of->number, (const byte *)&of->content);
        of->changed = 0;
    }
}

// The frame for a block: the one that holds it, or the one that was used longest ago.
static frame *frame_for(u32 number) {
    frame *oldest = frames;
    for (frame *at = frames; at < frames + HELD; at++) {
        if (at->number == number) {
            oldest = at;
            break;
        }
        if (at->used < oldest->used) {
            oldest = at;
        }
    }
    oldest->used = ++clock;
    return oldest;
}

static frame *get(u32 number) {
    frame *found = frame_for(number);
    if (found->number != number) {
        put_back(found);
        disk_read(number, (byte *)&found->content);
        found->number = number;
        if (found->content.checksum != checksum(&found->content)) {
            fail();
        }
    }
    return found;
}

static frame *make(int inner) {
    frame *made = frame_for(block_count);
    put_back(made);
    __builtin_memset(&made->content, 0, BLOCK);
    made->content.inner = (unsigned short)inner;
    made->number = block_count++;
    made->changed = 1;
    return made;
}

static u32 place_of(const block *in, u32 key) {
    u32 at = 0;
    while (at < in->count && in->keys[at] < key) {
        at++;
    }
    return at;
}

static void put(block *into, u32 at, u32 key, u32 value, u32 child) {
    for (u32 place = into->count; place > at; place--) {
        into->keys[place] = into->keys[place - 1];
        into->values[place] = into->values[place - 1];
        into->children[place + 1] = into->children[place];
    }
    into->keys[at] = key;
    into->values[at] = value;
    into->children[at + 1] = child;
    into->count++;
}

// Splits a full child: its middle key goes up, the keys behind it into a new block.
static void split(u32 parent, u32 at, u32 child) {
    u32 made = make(get(child)->content.inner)->number;
    frame *left = get(child), *right = get(made);
    u32 middle = MOST_KEYS / 2, key = left->content.keys[middle], value = left->content.values[middle];
    right->content.count = MOST_KEYS - middle - 1;
    for (u32 place = 0; place < right->content.count; place++) {
        right->content.keys[place] = left->content.keys[middle + 1 + place];
        right->content.values[place] = left->content.values[middle + 1 + place];
    }
    for (u32 place = 0; place <= right->content.count; place++) {
        right->content.children[place] = left->content.children[middle + 1 + place];
    }
    left->content.count = (unsigned short)middle;
    left->changed = right->changed = 1;
    frame *above = get(parent);
    put(&above->content, at, key, value, made);
    above->changed = 1;
}

static void insert(u32 key, u32 value) {
    if (get(root)->content.count == MOST_KEYS) {
        u32 old = root;
        frame *above = make(1);
        above->content.children[0] = old;
        root = above->number;
        split(root, 0, old);
    }
    for (u32 number = root;;) {
        frame *now = get(number);
        u32 at = place_of(&now->content, key);
        if (at < now->content.count && now->content.keys[at] == key) {
            now->content.values[at] = value;
            now->changed = 1;
            return;
        }
        if (!now->content.inner) {
            put(&now->content, at, key, value, 0);
            now->changed = 1;
            return;
        }
        u32 child = now->content.children[at];
        if (get(child)->content.count == MOST_KEYS) {
            split(number, at, child);
        } else {
            number = child;
        }
    }
}

static u32 find(u32 key) {
    for (u32 number = root;;) {
        const block *now = &get(number)->content;
        u32 at = place_of(now, key);
        if (at < now->count && now->keys[at] == key) {
            return now->values[at];
        }
        if (!now->inner) {
            return FREE;
        }
        number = now->children[at];
    }
}

// How many keys there are from one to another, without the latter.
static u32 count(u32 number, u32 from, u32 to) {
    u32 sum = 0;
    for (u32 at = place_of(&get(number)->content, from);; at++) {
        if (get(number)->content.inner) {
            sum += count(get(number)->content.children[at], from, to);
        }
        const block *now = &get(number)->content;
        if (at >= now->count || now->keys[at] >= to) {
            return sum;
        }
        sum++;
    }
}

__attribute__((export_name("run"))) u32 run(void) {
    u32 key, other;
    for (frame *at = frames; at < frames + HELD; at++) {
        at->number = FREE;
    }
    root = make(0)->number;
    for (;;) {
        switch (next_command(&key, &other)) {
        case INSERT: insert(key, other); break;
        case FIND: answer(find(key)); break;
        case COUNT: answer(count(root, key, other)); break;
        default: return block_count;
        }
    }
}
