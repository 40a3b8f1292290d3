// A matcher of regular expressions, by backtracking over a tree of nodes. An expression may name a test of the host,
// {N}: the matcher then calls the host, which may look at the text through the program's exports, and match another
// expression from that place, which calls the matcher within the call.
//
// Expressions have letters, `.`, sets `[a-z]`, `*`, `+`, `?`, `|`, brackets and `{N}`.
#include "wasi.h"

#define HOST(name) __attribute__((import_module("env"), import_name(#name)))

HOST(text) int read_text(byte *to, int room);
HOST(expression) int read_expression(byte *to, int room);
HOST(test) int test(int number, int at);
HOST(found) void found(int begin, int end);

enum { MOST_TEXT = 8192, MOST_EXPRESSION = 128, MOST_NODES = 1024, NOWHERE = -1 };

// What is to be matched, and what behind it: a list by `next`, with branches for what may be left out.
typedef enum { ACCEPT, LETTER, ANY, SET, SPLIT, TEST, NOTHING } kind;

typedef struct {
    kind what;
    int next, other, number;
    u32 set[8];
} node;

static byte text[MOST_TEXT], expression[MOST_EXPRESSION + 1];
static node nodes[MOST_NODES];
static int text_length, node_count;
static const byte *at_expression;

static int make(kind what, int next) {
    if (node_count == MOST_NODES) {
        __builtin_trap();
    }
    __builtin_memset(&nodes[node_count], 0, sizeof(node));
    nodes[node_count].what = what;
    nodes[node_count].next = next;
    return node_count++;
}

static int alternatives(int next);

static void add_to_set(node *to, byte character) {
    to->set[character >> 5] |= 1u << (character & 31);
}

static int set(int next) {
    int made = make(SET, next);
    for (; *at_expression != ']' && *at_expression != 0; at_expression++) {
        byte first = *at_expression, last = first;
        if (at_expression[1] == '-') {
            at_expression += 2;
            last = *at_expression;
        }
        for (int character = first; character <= last; character++) {
            add_to_set(&nodes[made], (byte)character);
        }
    }
    at_expression++;
    return made;
}

static int host_test(int next) {
    int made = make(TEST, next);
    while (*at_expression != '}' && *at_expression != 0) {
        nodes[made].number = nodes[made].number * 10 + (*at_expression++ - '0');
    }
    at_expression++;
    return made;
}

// One item, which leads to the node `next`. Items are made anew for each place that they lead to.
static int item(int next) {
    byte character = *at_expression++;
    switch (character) {
    case '.': return make(ANY, next);
    case '[': return set(next);
    case '{': return host_test(next);
    case '(': {
        int inner = alternatives(next);
        at_expression++;
        return inner;
    }
    default: {
        int made = make(LETTER, next);
        nodes[made].number = character;
        return made;
    }
    }
}

// The end of an item whose text begins here.
static const byte *end_of_item(const byte *from) {
    int depth = 0;
    for (;; from++) {
        depth += (*from == '(') - (*from == ')');
        if (*from == '[') {
            while (*from != ']') {
                from++;
            }
        }
        if (*from == '{') {
            while (*from != '}') {
                from++;
            }
        }
        if (depth == 0) {
            return from + 1;
        }
    }
}

static int sequence(int next) {
    if (*at_expression == 0 || *at_expression == '|' || *at_expression == ')') {
        return next;
    }
    const byte *begin = at_expression, *end = end_of_item(begin);
    byte repeat = *end;
    if (repeat != '*' && repeat != '+' && repeat != '?') {
        at_expression = end;
        int rest = sequence(next);
        const byte *after = at_expression;
        at_expression = begin;
        int made = item(rest);
        at_expression = after;
        return made;
    }
    at_expression = end + 1;
    int split = make(SPLIT, NOWHERE);
    nodes[split].other = sequence(next);
    const byte *after = at_expression;
    at_expression = begin;
    int inner = item(repeat == '?' ? nodes[split].other : split);
    nodes[split].next = inner;
    at_expression = after;
    return repeat == '+' ? inner : split;
}

static int alternatives(int next) {
    int made = sequence(next);
    while (*at_expression == '|') {
        at_expression++;
        int split = make(SPLIT, made);
        nodes[split].other = sequence(next);
        made = split;
    }
    return made;
}

// The end of the match of what a node begins, or NOWHERE. The longest way is tried first.
static int match(int number, int at) {
    for (;;) {
        const node *now = &nodes[number];
        switch (now->what) {
        case ACCEPT: return at;
        case SPLIT: {
            int end = match(now->next, at);
            if (end != NOWHERE) {
                return end;
            }
            number = now->other;
            continue;
        }
        case TEST:
            at = test(now->number, at);
            if (at == NOWHERE) {
                return NOWHERE;
            }
            break;
        case LETTER:
            if (at >= text_length || text[at++] != now->number) {
                return NOWHERE;
            }
            break;
        case ANY:
            if (at >= text_length || text[at++] == '\n') {
                return NOWHERE;
            }
            break;
        case SET:
            if (at >= text_length || !(now->set[text[at] >> 5] >> (text[at] & 31) & 1)) {
                return NOWHERE;
            }
            at++;
            break;
        default: return NOWHERE;
        }
        number = now->next;
    }
}

// Compiles the next expression that the host gives, and gives its first node, or NOWHERE where there is none.
static int compile(void) {
    int length = read_expression(expression, MOST_EXPRESSION);
    if (length == 0) {
        return NOWHERE;
    }
    expression[length] = 0;
    at_expression = expression;
    return alternatives(make(ACCEPT, NOWHERE));
}

// Matches the next expression that the host gives at a place, within a call of the host.
__attribute__((export_name("match_at"))) int match_at(int at) {
    int kept = node_count, first = compile();
    int end = first == NOWHERE ? NOWHERE : match(first, at);
    node_count = kept;
    return end;
}

__attribute__((export_name("character"))) int character(int at) {
    return at < 0 || at >= text_length ? 0 : text[at];
}

__attribute__((export_name("run"))) int run(void) {
    int matches = 0;
    text_length = read_text(text, MOST_TEXT);
    for (int first; (first = compile()) != NOWHERE;) {
        for (int at = 0; at < text_length;) {
            int end = match(first, at);
            if (end > at) {
                found(at, end);
                matches++;
                at = end;
            } else {
                at++;
            }
        }
        node_count = 0;
    }
    return matches;
}
