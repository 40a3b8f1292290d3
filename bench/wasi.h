// The functions of WASI, preview 1, that programs of this folder import, and what they need to read and print.
typedef unsigned char byte;
typedef unsigned int u32;
typedef struct {
    const void *at;
    u32 length;
} span;

#define WASI(name) __attribute__((import_module("wasi_snapshot_preview1"), import_name(#name)))

WASI(fd_read) int fd_read(int file, const span *spans, int count, u32 *done);
WASI(fd_write) int fd_write(int file, const span *spans, int count, u32 *done);
WASI(proc_exit) _Noreturn void proc_exit(int status);

enum { INPUT = 0, OUTPUT = 1 };

// Reads until the end of the file or of the room, and gives the number of bytes.
static inline u32 read_all(int file, byte *to, u32 room) {
    u32 held = 0;
    while (held < room) {
        u32 got = 0;
        span rest = { to + held, room - held };
        if (fd_read(file, &rest, 1, &got) != 0 || got == 0) {
            break;
        }
        held += got;
    }
    return held;
}

static inline void print_bytes(const void *text, u32 length) {
    u32 done;
    span all = { text, length };
    fd_write(OUTPUT, &all, 1, &done);
}

static inline void print(const char *text) {
    u32 length = 0;
    while (text[length] != 0) {
        length++;
    }
    print_bytes(text, length);
}

static inline void print_number(u32 number) {
    char digits[10];
    int at = 10;
    do {
        digits[--at] = (char)('0' + number % 10);
        number /= 10;
    } while (number != 0);
    print_bytes(digits + at, (u32)(10 - at));
}

static inline void print_hex(u32 number) {
    char digits[8];
    for (int at = 0; at < 8; at++) {
        digits[at] = "0123456789abcdef"[number >> (28 - 4 * at) & 15];
    }
    print_bytes(digits, 8);
}
