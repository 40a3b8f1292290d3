// The library of shelf.left.c: has the memory of records, and sorts them. Its data and its stack are in other parts of
// the memory than those of the program, from which it imports the memory and the table.
//
// Compiled by clang and lld 14, which import memory and table from `env`; the package wabt renames this:
// clang --target=wasm32 -nostdlib -fno-builtin -Os
//     -Wl,--no-entry,--strip-all,--import-memory,--import-table,--global-base=4096,-z,stack-size=1024
//     -o library.wasm shelf.right.c
// wasm2wat library.wasm | sed -E 's/"env" "(memory|__indirect_function_table)"/"left" "\1"/' > shelf.right.wat
// wat2wasm -o shelf.right.wasm shelf.right.wat
typedef struct record { struct record *next; int unused; } record;
typedef int (*order)(const record *first, const record *second);

__attribute__((import_module("left"), import_name("spare"))) int spare(void);
__attribute__((import_module("env"), import_name("full"))) void full(int records);

enum { RECORDS = 4 };

static record records[RECORDS];
static int used;
static record *free_records;

// A record, of which the program gives one back if all are used.
__attribute__((export_name("take"))) record *take(void) {
    if (free_records == 0) {
        if (used < RECORDS) return &records[used++];
        full(used);
        if (!spare()) __builtin_trap();
    }
    record *taken = free_records;
    free_records = taken->next;
    return taken;
}

__attribute__((export_name("give_back"))) void give_back(record *spared) {
    spared->next = free_records;
    free_records = spared;
}

// Sorts records by the function of the program, by which each one is moved before those that it precedes.
__attribute__((export_name("sort"))) void sort(record **items, int count, order is_before) {
    for (int sorted = 1; sorted < count; sorted++) {
        record *moved = items[sorted];
        int at = sorted;
        for (; at > 0 && is_before(moved, items[at - 1]); at--) items[at] = items[at - 1];
        items[at] = moved;
    }
}
