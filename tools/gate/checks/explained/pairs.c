struct pair {
    int first, second;
};
struct pair swap(struct pair p) { return (struct pair){p.second, p.first}; }
