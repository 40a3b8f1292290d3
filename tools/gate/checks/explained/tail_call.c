int other(int x);
int jump(int x) { __attribute__((musttail)) return other(x + 1); }
