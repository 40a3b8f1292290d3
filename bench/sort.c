// Sorts records by comparisons that are called through the table. The host sorts the records in the memory, and calls
// the program's comparison by its entry; the program then sorts another order by heap, with each comparison found in a
// table of functions, tests that both are sorted, and hands the host a summary.
#include "wasi.h"

#define HOST(name) __attribute__((import_module("env"), import_name(#name)))

enum { MOST = 300, NAME = 20 };

typedef struct {
    char name[NAME];
    u32 year, size;
} record;

typedef int (*comparison)(const record *, const record *);

HOST(records) u32 read_records(record *to, u32 most);
HOST(sort) void host_sort(record *from, u32 count, u32 size, comparison compare);
HOST(report) void report(const char *what, u32 number);

static record records[MOST];
static u32 count, comparisons;

static int by_number(u32 one, u32 other) {
    return one < other ? -1 : one > other;
}

static int by_name(const record *one, const record *other) {
    comparisons++;
    for (int at = 0; at < NAME; at++) {
        if (one->name[at] != other->name[at] || one->name[at] == 0) {
            return (byte)one->name[at] - (byte)other->name[at];
        }
    }
    return 0;
}

static int by_year(const record *one, const record *other) {
    comparisons++;
    int order = by_number(one->year, other->year);
    return order != 0 ? order : by_name(one, other);
}

static int by_size(const record *one, const record *other) {
    comparisons++;
    int order = by_number(other->size, one->size);
    return order != 0 ? order : by_year(one, other);
}

static comparison const orders[] = { by_name, by_year, by_size };
enum { ORDERS = sizeof orders / sizeof orders[0], HOST_ORDER = 1 };

static void swap(record *one, record *other) {
    record kept = *one;
    *one = *other;
    *other = kept;
}

static void sink(u32 at, u32 length, comparison compare) {
    for (u32 child; (child = 2 * at + 1) < length; at = child) {
        if (child + 1 < length && compare(&records[child], &records[child + 1]) < 0) {
            child++;
        }
        if (compare(&records[at], &records[child]) >= 0) {
            return;
        }
        swap(&records[at], &records[child]);
    }
}

static void heap_sort(comparison compare) {
    for (u32 at = count / 2; at > 0; at--) {
        sink(at - 1, count, compare);
    }
    for (u32 length = count; length > 1; length--) {
        swap(&records[0], &records[length - 1]);
        sink(0, length - 1, compare);
    }
}

static int is_sorted(comparison compare) {
    for (u32 at = 1; at < count; at++) {
        if (compare(&records[at - 1], &records[at]) > 0) {
            return 0;
        }
    }
    return 1;
}

static u32 checksum(void) {
    u32 sum = 2166136261u;
    const byte *bytes = (const byte *)records;
    for (u32 at = 0; at < count * sizeof(record); at++) {
        sum = (sum ^ bytes[at]) * 16777619u;
    }
    return sum;
}

__attribute__((export_name("run"))) u32 run(u32 rounds) {
    count = read_records(records, MOST);
    host_sort(records, count, sizeof(record), orders[HOST_ORDER]);
    if (!is_sorted(orders[HOST_ORDER])) {
        __builtin_trap();
    }
    report("sorted by the host", checksum());
    for (u32 round = 0; round < rounds; round++) {
        comparison compare = orders[round % ORDERS];
        heap_sort(compare);
        if (!is_sorted(compare)) {
            __builtin_trap();
        }
        report("sorted by heap", checksum());
    }
    return comparisons;
}
