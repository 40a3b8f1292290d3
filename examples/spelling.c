// Corrects words. `load` takes a list of words from the host, block by block, and keeps them in the order of the
// alphabet; that is the long start of a run. `correct` asks the host for a word and reports the nearest one that is
// kept among those with the same first letter: the one with the least number of letters to add, to remove or to change.
//
// Compiled by clang and lld 14: clang --target=wasm32 -nostdlib -fno-builtin -Os
//     -Wl,--no-entry,--strip-all,-z,stack-size=1024 -o spelling.wasm spelling.c
__attribute__((import_module("env"), import_name("read"))) int read_block(char *to, int most);
__attribute__((import_module("env"), import_name("ask"))) int ask_word(char *to, int most);
__attribute__((import_module("env"), import_name("report"))) void report_word(const char *word, int length, int distance);

enum { MOST_WORDS = 64, MOST_LETTERS = 15 };

typedef struct {
    unsigned char length;
    char letters[MOST_LETTERS];
} word;

static word words[MOST_WORDS];
static int count;

static int is_before(const word *first, const word *second) {
    for (int at = 0; at < first->length && at < second->length; at++) {
        if (first->letters[at] != second->letters[at]) return first->letters[at] < second->letters[at];
    }
    return first->length < second->length;
}

static void keep(const word *given) {
    if (given->length == 0 || count == MOST_WORDS) return;
    int at = count++;
    for (; at > 0 && is_before(given, &words[at - 1]); at--) words[at] = words[at - 1];
    words[at] = *given;
}

__attribute__((export_name("load"))) int load(void) {
    char block[32];
    word next = {0};
    int got;
    while ((got = read_block(block, sizeof block)) > 0) {
        for (int at = 0; at < got; at++) {
            if (block[at] == ' ') {
                keep(&next);
                next.length = 0;
            } else if (next.length < MOST_LETTERS) {
                next.letters[next.length++] = block[at];
            }
        }
    }
    keep(&next);
    return count;
}

// The letters to add, to remove or to change, row by row of the table of all pairs of beginnings.
static int distance(const word *first, const word *second) {
    unsigned char row[MOST_LETTERS + 1];
    for (int at = 0; at <= second->length; at++) row[at] = at;
    for (int i = 0; i < first->length; i++) {
        int corner = row[0];
        row[0] = i + 1;
        for (int j = 0; j < second->length; j++) {
            int least = corner + (first->letters[i] != second->letters[j]);
            corner = row[j + 1];
            if (corner + 1 < least) least = corner + 1;
            if (row[j] + 1 < least) least = row[j] + 1;
            row[j + 1] = least;
        }
    }
    return row[second->length];
}

__attribute__((export_name("correct"))) void correct(void) {
    word asked;
    int got = ask_word(asked.letters, MOST_LETTERS);
    asked.length = got < 0 ? 0 : got > MOST_LETTERS ? MOST_LETTERS : got;
    int nearest = -1, least = MOST_LETTERS + 1;
    for (int at = 0; at < count; at++) {
        if (words[at].letters[0] != asked.letters[0]) continue;
        int found = distance(&asked, &words[at]);
        if (found < least) {
            least = found;
            nearest = at;
        }
    }
    if (nearest >= 0) report_word(words[nearest].letters, words[nearest].length, least);
}
