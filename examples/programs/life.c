/* The game of life on a canvas, a frame at a time. */
#include <emscripten.h>
#include <stdio.h>
#include <stdlib.h>
#include <string.h>

enum { SIZE = 32, FRAMES = 4 };

static unsigned char boards[2][SIZE * SIZE];
static int frames;

EM_JS(void, draw, (const unsigned char *board, int size, double brightness), {
    const context = document.getElementById('canvas').getContext('2d');
    for (let y = 0; y < size; y++) {
        for (let x = 0; x < size; x++) {
            const alive = HEAPU8[board + y * size + x];
            context.fillStyle = alive ? 'rgb(0,' + Math.round(brightness * 200) + ',80)' : 'white';
            context.fillRect(8 * x, 8 * y, 8, 8);
        }
    }
});
EM_JS(void, finished, (), { if (globalThis.r3) r3.done(); });

static int neighbours(const unsigned char *board, int x, int y) {
    int count = 0;
    for (int dy = -1; dy <= 1; dy++) {
        for (int dx = -1; dx <= 1; dx++) {
            if (dx != 0 || dy != 0) {
                count += board[(y + dy + SIZE) % SIZE * SIZE + (x + dx + SIZE) % SIZE];
            }
        }
    }
    return count;
}

static void frame(void) {
    const unsigned char *old = boards[frames & 1];
    unsigned char *new = boards[~frames & 1];
    int alive = 0;
    for (int y = 0; y < SIZE; y++) {
        for (int x = 0; x < SIZE; x++) {
            int count = neighbours(old, x, y);
            new[y * SIZE + x] = count == 3 || (count == 2 && old[y * SIZE + x]);
            alive += new[y * SIZE + x];
        }
    }
    frames++;
    draw(new, SIZE, 1 - frames / 8.0);
    printf("frame %d: %d alive, %.3f of all\n", frames, alive, alive / (double)(SIZE * SIZE));
    if (frames == FRAMES) {
        emscripten_cancel_main_loop();
        finished();
    }
}

int main(void) {
    for (int i = 0; i < SIZE * SIZE; i++) {
        boards[0][i] = rand() >> 8 & 1;
    }
    emscripten_set_main_loop(frame, 30, 0);
    return 0;
}
