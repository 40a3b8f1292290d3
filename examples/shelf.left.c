// Keeps numbers in records. A library, which is another module (shelf.right.c), has the memory of the records and
// sorts them. Both modules use one memory and one table: records are handed over as pointers, and so is the function
// that compares two of them. If the library has no record left, it asks this program to give one back.
//
// Compiled by clang and lld 14: clang --target=wasm32 -nostdlib -fno-builtin -Os
//     -Wl,--no-entry,--strip-all,--export-table,-z,stack-size=1024 -o shelf.left.wasm shelf.left.c
typedef struct { int value; int place; } record;
typedef int (*order)(const record *first, const record *second);

__attribute__((import_module("right"), import_name("take"))) record *take(void);
__attribute__((import_module("right"), import_name("give_back"))) void give_back(record *spare);
__attribute__((import_module("right"), import_name("sort"))) void sort(record **records, int count, order is_before);
__attribute__((import_module("env"), import_name("read"))) int read_numbers(int *to, int most);
__attribute__((import_module("env"), import_name("write"))) void write_number(int number);

static record *kept[8];
static int count;
static int places;

static int by_value(const record *first, const record *second) {
    return first->value < second->value;
}

static int by_place(const record *first, const record *second) {
    return first->place < second->place;
}

static void write_all(order is_before) {
    sort(kept, count, is_before);
    for (int at = 0; at < count; at++) write_number(kept[at]->value);
}

// Gives back the record that was read first; returns whether there was one.
__attribute__((export_name("spare"))) int spare(void) {
    if (count == 0) return 0;
    sort(kept, count, by_place);
    give_back(kept[0]);
    count--;
    for (int at = 0; at < count; at++) kept[at] = kept[at + 1];
    return 1;
}

// Reads numbers until there are none, and writes those that are kept by their values and by their places.
__attribute__((export_name("run"))) int run(void) {
    int numbers[4];
    for (int read; (read = read_numbers(numbers, 4)) > 0;) {
        for (int at = 0; at < read; at++) {
            record *next = take();
            next->value = numbers[at];
            next->place = places++;
            kept[count++] = next;
        }
    }
    write_all(by_value);
    write_all(by_place);
    return count;
}
