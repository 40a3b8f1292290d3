/* A checksum that a worker computes: a module without a C library. */
typedef unsigned int u32;

static u32 table[256];
static unsigned char room[1 << 16];

__attribute__((export_name("room"))) unsigned char *room_of(u32 length) { return length <= sizeof room ? room : 0; }

static void fill_table(void) {
    for (u32 i = 0; i < 256; i++) {
        u32 value = i;
        for (int bit = 0; bit < 8; bit++) {
            value = value & 1 ? 0xedb88320 ^ (value >> 1) : value >> 1;
        }
        table[i] = value;
    }
}

__attribute__((import_module("host"), import_name("progress"))) void progress(double share);

__attribute__((export_name("checksum"))) u32 checksum(u32 length) {
    u32 value = ~0u;
    if (table[1] == 0) {
        fill_table();
    }
    for (u32 at = 0; at < length; at += 4096) {
        u32 end = length - at < 4096 ? length : at + 4096;
        for (u32 i = at; i < end; i++) {
            value = table[(value ^ room[i]) & 255] ^ (value >> 8);
        }
        progress(end / (double)length);
    }
    return ~value;
}
