int half(int x) { return (int)(x * 0.5f); }
int more(int x) { return x + 1; }
