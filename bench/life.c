// Conway's game of life on a board that grows. It reads a pattern by lines of dots and stars, and plays generations.
// Where a cell lives at the edge, the board is copied to a larger one, for which the memory grows: the boards are
// behind all that the program has by itself. The host is shown the board from time to time, and ends the game.
#include "wasi.h"

#define HOST(name) __attribute__((import_module("env"), import_name(#name)))

HOST(pattern) int pattern(byte *to, int room);
HOST(show) int show(int generation, const byte *cells, int width, int height);

enum { ROOM = 4096, PAGE = 65536, MARGIN = 8, EVERY = 8 };

// Each cell is a byte. Around the cells there is a frame of dead ones.
typedef struct {
    byte *cells;
    int width, height;
} board;

static byte text[ROOM];
static byte *end_of_boards;
extern byte __heap_base;

static byte *take_memory(u32 bytes) {
    if (end_of_boards == 0) {
        end_of_boards = &__heap_base;
    }
    byte *taken = end_of_boards;
    end_of_boards += bytes;
    u32 pages = ((u32)end_of_boards + PAGE - 1) / PAGE;
    if (pages > __builtin_wasm_memory_size(0)) {
        if (__builtin_wasm_memory_grow(0, pages - __builtin_wasm_memory_size(0)) == (unsigned long)-1) {
            __builtin_trap();
        }
    }
    return taken;
}

static u32 size_of(const board *of) {
    return (u32)((of->width + 2) * (of->height + 2));
}

static board new_board(int width, int height) {
    board made = { 0, width, height };
    made.cells = take_memory(size_of(&made));
    __builtin_memset(made.cells, 0, size_of(&made));
    return made;
}

static byte *row(const board *of, int y) {
    return of->cells + (y + 1) * (of->width + 2) + 1;
}

static board read_board(int length) {
    int width = 0, height = 0, column = 0;
    for (int at = 0; at < length; at++) {
        column = text[at] == '\n' ? 0 : column + 1;
        height += text[at] == '\n';
        width = column > width ? column : width;
    }
    board made = new_board(width, height);
    for (int at = 0, y = 0, x = 0; at < length; at++) {
        if (text[at] == '\n') {
            y++;
            x = 0;
        } else {
            row(&made, y)[x++] = text[at] == '*';
        }
    }
    return made;
}

static int lives_at_edge(const board *of) {
    for (int x = 0; x < of->width; x++) {
        if (row(of, 0)[x] | row(of, of->height - 1)[x]) {
            return 1;
        }
    }
    for (int y = 0; y < of->height; y++) {
        if (row(of, y)[0] | row(of, y)[of->width - 1]) {
            return 1;
        }
    }
    return 0;
}

static board larger(const board *of) {
    board made = new_board(of->width + 2 * MARGIN, of->height + 2 * MARGIN);
    for (int y = 0; y < of->height; y++) {
        __builtin_memcpy(row(&made, y + MARGIN) + MARGIN, row(of, y), (u32)of->width);
    }
    return made;
}

static void play(const board *now, const board *then) {
    int line = now->width + 2;
    for (int y = 0; y < now->height; y++) {
        const byte *from = row(now, y);
        byte *to = row(then, y);
        for (int x = 0; x < now->width; x++) {
            const byte *above = from + x - line, *below = from + x + line;
            int around = above[-1] + above[0] + above[1] + from[x - 1] + from[x + 1] + below[-1] + below[0] + below[1];
            to[x] = around == 3 || (around == 2 && from[x]);
        }
    }
}

__attribute__((export_name("population"))) int population(const byte *cells, int width, int height) {
    int count = 0;
    for (int at = 0; at < (width + 2) * (height + 2); at++) {
        count += cells[at];
    }
    return count;
}

__attribute__((export_name("run"))) int run(void) {
    board now = read_board(pattern(text, ROOM));
    board then = new_board(now.width, now.height);
    int generation = 0;
    while (generation % EVERY != 0 || show(generation, now.cells, now.width, now.height)) {
        if (lives_at_edge(&now)) {
            now = larger(&now);
            then = new_board(now.width, now.height);
        }
        play(&now, &then);
        board last = now;
        now = then;
        then = last;
        generation++;
    }
    return population(now.cells, now.width, now.height);
}
