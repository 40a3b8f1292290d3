// Counts words: reads text from the host block by block into a buffer, keeps a table of words by
// hash, and writes the longest word back to the host.
typedef unsigned char byte;

__attribute__((import_module("env"), import_name("read"))) int read_block(byte *to, int most);
__attribute__((import_module("env"), import_name("write"))) void write_block(const byte *from, int count);

static byte buffer[64];
static struct { unsigned hash; unsigned count; } table[32];
static byte longest[16];
static int longest_length;
static int distinct;

static void end_word(const byte *word, int length, unsigned hash) {
    unsigned at = hash % 32;
    while (table[at].count != 0 && table[at].hash != hash) {
        at = (at + 1) % 32;
    }
    if (table[at].count == 0) {
        table[at].hash = hash;
        distinct++;
    }
    table[at].count++;
    if (length > longest_length) {
        longest_length = length;
        for (int i = 0; i < length; i++) {
            longest[i] = word[i];
        }
    }
}

__attribute__((export_name("run"))) int run(void) {
    byte word[16];
    int length = 0;
    unsigned hash = 2166136261u;
    for (;;) {
        int got = read_block(buffer, sizeof buffer);
        if (got <= 0) {
            break;
        }
        for (int i = 0; i < got; i++) {
            byte c = buffer[i];
            if (c >= 'a' && c <= 'z') {
                if (length < 16) {
                    word[length++] = c;
                }
                hash = (hash ^ c) * 16777619u;
            } else if (length > 0) {
                end_word(word, length, hash);
                length = 0;
                hash = 2166136261u;
            }
        }
    }
    if (length > 0) {
        end_word(word, length, hash);
    }
    write_block(longest, longest_length);
    return distinct;
}
