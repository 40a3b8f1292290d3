int next(int *place) { return __atomic_fetch_add(place, 1, __ATOMIC_SEQ_CST); }
