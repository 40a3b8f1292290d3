extern "C" int caught(int x) {
    try {
        if (x) throw x;
    } catch (int y) {
        return y;
    }
    return 0;
}
