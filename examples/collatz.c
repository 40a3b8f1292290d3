// How many steps the Collatz sequences take that begin with the numbers which the host gives, up to
// a 0: the sum of all, and in the upper bits the longest.
__attribute__((import_module("host"), import_name("next"))) int next(void);

static unsigned steps(unsigned long long n) {
    unsigned count = 0;
    while (n > 1) {
        n = n & 1 ? 3 * n + 1 : n >> 1;
        count++;
    }
    return count;
}

__attribute__((export_name("run"))) int run(void) {
    unsigned sum = 0, longest = 0;
    for (;;) {
        unsigned n = (unsigned)next();
        if (n == 0) {
            return (int)(longest << 16 | (sum & 0xffff));
        }
        unsigned count = steps(n);
        sum += count;
        if (count > longest) {
            longest = count;
        }
    }
}
