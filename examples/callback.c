// Calls a function of the host's own by a pointer. The host puts the function into the table and answers `register` by
// its place there, which is what a pointer to a function is. For one cell that function writes a number of its own into
// the cell, and for one it calls the program back.
//
// Compiled by clang and lld 14: clang --target=wasm32 -nostdlib -O1
//     -Wl,--no-entry,--strip-all,--export-table,--growable-table -o callback.wasm callback.c
typedef int (*visitor)(int *cell, int place);

__attribute__((import_module("env"), import_name("register"))) visitor registered(int count);

static int cells[4];
static int extra;

__attribute__((export_name("add"))) void add(int amount) {
    extra += amount;
}

__attribute__((export_name("run"))) int run(int first) {
    visitor visit = registered(4);
    int total = 0;
    for (int place = 0; place < 4; place++) {
        cells[place] = first + place;
        total += visit(&cells[place], place) * cells[place];
    }
    return total + extra;
}
