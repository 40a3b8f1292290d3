// A binary tree of numbers in memory that grows: the host gives numbers, which are put into a tree
// whose nodes are taken from pages that the program adds; then the tree is walked through a table of
// functions, and each number is told to the host in order.
typedef struct node node;
struct node { long long key; node *left, *right; };

__attribute__((import_module("env"), import_name("next"))) int next(long long *to);
__attribute__((import_module("env"), import_name("tell"))) void tell(long long key, int depth);

static node *root;
static unsigned used, limit;
static long long sum;

static node *new_node(long long key) {
    if (used + sizeof(node) > limit) {
        int page = __builtin_wasm_memory_grow(0, 1);
        if (page < 0) {
            __builtin_trap();
        }
        used = (unsigned)page << 16;
        limit = used + 65536;
    }
    node *made = (node *)used;
    used += sizeof(node);
    made->key = key;
    made->left = made->right = 0;
    return made;
}

static void visit_tell(long long key, int depth) { tell(key, depth); }
static void visit_sum(long long key, int depth) { sum += key * depth; }

static void (*volatile visits[2])(long long, int) = { visit_tell, visit_sum };

static void walk(const node *at, int depth, int which) {
    if (at == 0) {
        return;
    }
    walk(at->left, depth + 1, which);
    visits[which](at->key, depth);
    walk(at->right, depth + 1, which);
}

__attribute__((export_name("run"))) long long run(void) {
    long long key;
    while (next(&key)) {
        node **at = &root;
        while (*at) {
            at = key < (*at)->key ? &(*at)->left : &(*at)->right;
        }
        *at = new_node(key);
    }
    walk(root, 1, 0);
    walk(root, 1, 1);
    return sum;
}
