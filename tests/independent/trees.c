/* Trees with cells of every kind and finalizers at both levels, made by calls alone. */
#include "suites.h"

#include "random.h"
#include "steps.h"

enum { BRANCHES = 1 + SLOTS, LEAVES = SLOTS * SLOTS, TREES = 16 };

/* The share of the objects that have finalizers, in percent. */
struct tree {
    unsigned branch_finalizers, leaf_finalizers;
};

static const struct tree shapes[] = { { 0, 100 }, { 30, 50 }, { 100, 50 } };

/* The child is made in a root of its own, which it leaves again unless it is a branch. */
static void add_child(struct pair *pair, size_t child, const struct tree *tree)
{
    bool branch = child < BRANCHES;
    size_t parent = (child - 1) / SLOTS, root = branch ? child : ROOTS - 1;
    enum kind kind = branch || chance(60) ? OBJECT : OBJECT + below(3);
    bool finalizer = kind == OBJECT && chance(branch ? tree->branch_finalizers : tree->leaf_finalizers);
    pair_call(pair, NEW, root, kind, finalizer);
    pair_call(pair, STORE, parent, (child - 1) % SLOTS, root);
    if (chance(10))
        pair_call(pair, STORE, below(parent + 1), below(SLOTS), root);
    if (root == ROOTS - 1)
        pair_call(pair, CLEAR, root, 0, 0);
}

/* Object 0 holds eight branches, each of which holds eight cells of any kind. A few cells stand in a second place,
   where they push another one out. */
static void tree_scene(const struct tree *tree)
{
    pair_sequence("trees");
    struct pair pair = pair_of(BRANCHES + LEAVES + below(8));
    pair_call(&pair, NEW, 0, OBJECT, chance(tree->branch_finalizers));
    for (size_t child = 1; child < BRANCHES + LEAVES; child++)
        add_child(&pair, child, tree);
    for (size_t branch = 1; branch < BRANCHES; branch++)
        pair_call(&pair, CLEAR, branch, 0, 0);
    pair_call(&pair, CLEAR, 0, 0, 0);
    drain(&pair);
    pair_call(&pair, COLLECT, 0, 0, 0);
    drain(&pair);
    pair_free(&pair);
}

void trees(void)
{
    for (size_t i = 0; i < TREES * sizeof shapes / sizeof *shapes; i++)
        tree_scene(&shapes[i / TREES]);
}
