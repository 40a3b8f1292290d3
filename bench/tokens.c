// A tokenizer for the C language with a symbol table. It reads its standard input in blocks of 1,000 bytes, finds the
// tokens by a table of states, keeps each name once in a table by hash, and prints how many tokens of each kind there
// are and the names that occur most. It does so several times over, each time with an empty table.
#include "wasi.h"

enum { BLOCK = 1000, MOST_SOURCE = 65536, PASSES = 6, SLOTS = 1024, MOST_TEXT = 32768, SHOWN = 12, MOST_NAME = 64 };

typedef enum { SPACE, LETTER, DIGIT, QUOTE, TICK, SLASH, STAR, BACKSLASH, LINE, OTHER, CLASSES } class;
typedef enum {
    BETWEEN, NAME, NUMBER, TEXT, TEXT_ESCAPE, CHARACTER, CHARACTER_ESCAPE, SLASHED, LINE_COMMENT, COMMENT,
    COMMENT_STAR, MARK, STATES
} state;

// The next state by the class of the next character.
static const byte next[STATES][CLASSES] = {
    [BETWEEN] = { BETWEEN, NAME, NUMBER, TEXT, CHARACTER, SLASHED, MARK, MARK, BETWEEN, MARK },
    [NAME] = { BETWEEN, NAME, NAME, TEXT, CHARACTER, SLASHED, MARK, MARK, BETWEEN, MARK },
    [NUMBER] = { BETWEEN, NUMBER, NUMBER, TEXT, CHARACTER, SLASHED, MARK, MARK, BETWEEN, MARK },
    [TEXT] = { TEXT, TEXT, TEXT, BETWEEN, TEXT, TEXT, TEXT, TEXT_ESCAPE, BETWEEN, TEXT },
    [TEXT_ESCAPE] = { TEXT, TEXT, TEXT, TEXT, TEXT, TEXT, TEXT, TEXT, TEXT, TEXT },
    [CHARACTER] = { CHARACTER, CHARACTER, CHARACTER, CHARACTER, BETWEEN, CHARACTER, CHARACTER, CHARACTER_ESCAPE,
                    BETWEEN, CHARACTER },
    [CHARACTER_ESCAPE] = { CHARACTER, CHARACTER, CHARACTER, CHARACTER, CHARACTER, CHARACTER, CHARACTER, CHARACTER,
                           CHARACTER, CHARACTER },
    [SLASHED] = { BETWEEN, NAME, NUMBER, TEXT, CHARACTER, LINE_COMMENT, COMMENT, MARK, BETWEEN, MARK },
    [LINE_COMMENT] = { LINE_COMMENT, LINE_COMMENT, LINE_COMMENT, LINE_COMMENT, LINE_COMMENT, LINE_COMMENT,
                       LINE_COMMENT, LINE_COMMENT, BETWEEN, LINE_COMMENT },
    [COMMENT] = { COMMENT, COMMENT, COMMENT, COMMENT, COMMENT, COMMENT, COMMENT_STAR, COMMENT, COMMENT, COMMENT },
    [COMMENT_STAR] = { COMMENT, COMMENT, COMMENT, COMMENT, COMMENT, BETWEEN, COMMENT_STAR, COMMENT, COMMENT, COMMENT },
    [MARK] = { BETWEEN, NAME, NUMBER, TEXT, CHARACTER, SLASHED, MARK, MARK, BETWEEN, MARK },
};

typedef struct {
    u32 at, length, uses;
} symbol;

static byte classes[256];
static symbol symbols[SLOTS];
static symbol *ordered[SLOTS];
static char texts[MOST_TEXT];
static byte source[MOST_SOURCE];
static u32 text_length, symbol_count, counts[STATES];

static void set_classes(void) {
    for (int character = 0; character < 256; character++) {
        int letter = (character | 32) >= 'a' && (character | 32) <= 'z';
        classes[character] = letter || character == '_' ? LETTER : OTHER;
    }
    for (int digit = '0'; digit <= '9'; digit++) {
        classes[digit] = DIGIT;
    }
    classes[' '] = classes['\t'] = classes['\r'] = SPACE;
    classes['"'] = QUOTE;
    classes['\''] = TICK;
    classes['/'] = SLASH;
    classes['*'] = STAR;
    classes['\\'] = BACKSLASH;
    classes['\n'] = LINE;
}

static int equals(const symbol *one, const char *name, u32 length) {
    if (one->length != length) {
        return 0;
    }
    for (u32 at = 0; at < length; at++) {
        if (texts[one->at + at] != name[at]) {
            return 0;
        }
    }
    return 1;
}

static void use(const char *name, u32 length) {
    u32 hash = 5381;
    for (u32 at = 0; at < length; at++) {
        hash = hash * 33 ^ (byte)name[at];
    }
    u32 slot = hash % SLOTS;
    while (symbols[slot].length != 0 && !equals(&symbols[slot], name, length)) {
        slot = (slot + 1) % SLOTS;
    }
    symbol *found = &symbols[slot];
    if (found->length == 0) {
        if (text_length + length > MOST_TEXT || symbol_count == SLOTS - 1) {
            proc_exit(1);
        }
        found->at = text_length;
        found->length = length;
        for (u32 at = 0; at < length; at++) {
            texts[text_length++] = name[at];
        }
        ordered[symbol_count++] = found;
    }
    found->uses++;
}

// Takes one character: a token that it ends is counted, a name is kept.
static state step(state now, byte character) {
    static char name[MOST_NAME];
    static u32 length;
    state then = next[now][classes[character]];
    if (now == NAME && then != NAME) {
        use(name, length);
        length = 0;
    }
    if (then == NAME && length < MOST_NAME) {
        name[length++] = (char)character;
    }
    if (then != now || then == MARK) {
        counts[then]++;
    }
    return then;
}

static int before(const symbol *one, const symbol *other) {
    if (one->uses != other->uses) {
        return one->uses > other->uses;
    }
    return one->at < other->at;
}

static void order(void) {
    for (u32 place = 1; place < symbol_count; place++) {
        symbol *moved = ordered[place];
        u32 at = place;
        for (; at > 0 && before(moved, ordered[at - 1]); at--) {
            ordered[at] = ordered[at - 1];
        }
        ordered[at] = moved;
    }
}

static void print_count(const char *what, u32 count) {
    print(what);
    print(" ");
    print_number(count);
    print("\n");
}

static void tokenize(u32 length) {
    state now = BETWEEN;
    __builtin_memset(symbols, 0, sizeof symbols);
    __builtin_memset(counts, 0, sizeof counts);
    text_length = symbol_count = 0;
    for (u32 at = 0; at < length; at++) {
        now = step(now, source[at]);
    }
    step(now, '\n');
    order();
}

__attribute__((export_name("_start"))) void start(void) {
    u32 length = 0;
    set_classes();
    for (u32 got; length + BLOCK <= MOST_SOURCE && (got = read_all(INPUT, source + length, BLOCK)) != 0;) {
        length += got;
    }
    for (int pass = 0; pass < PASSES; pass++) {
        tokenize(length);
    }
    print_count("names", counts[NAME]);
    print_count("numbers", counts[NUMBER]);
    print_count("texts", counts[TEXT] - counts[TEXT_ESCAPE]);
    print_count("comments", counts[LINE_COMMENT] + counts[COMMENT] - counts[COMMENT_STAR]);
    print_count("marks", counts[MARK]);
    print_count("different names", symbol_count);
    for (u32 at = 0; at < SHOWN && at < symbol_count; at++) {
        print_bytes(texts + ordered[at]->at, ordered[at]->length);
        print_count("", ordered[at]->uses);
    }
}
