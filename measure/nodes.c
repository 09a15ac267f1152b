/* How many nodes the trees of random frames have: prints a line of a markdown table for each kind of frame, the most of so many seeds. */
#include "frames.h"

enum { SEEDS = 9 };

/* Copies in pairs that stand at most 0.05 apart on each axis, so that nearly every box divides down to the least side. */
static void pair_up(size_t n) {
    spread_copies(n, 1);
    for (size_t i = 1; i < n; i += 2)
        put_near(t.solutes, i, i - 1, 0.1f);
}

static void line(const char *kind, float side, size_t n, size_t w, void (*copies)(size_t)) {
    unsigned least = UINT32_MAX, most = 0, depth = 0;
    for (uint64_t k = 1; k <= SEEDS; k++) {
        seed(k);
        cube(side);
        copies(n);
        spread_waters(w);
        expect("tree", call_tree(), BAITHRUM_DONE);
        unsigned nodes = (unsigned)t.answers[BAITHRUM_TREE_NODES];
        least = nodes < least ? nodes : least;
        most = nodes > most ? nodes : most;
        depth = t.answers[BAITHRUM_TREE_DEPTH] > depth ? (unsigned)t.answers[BAITHRUM_TREE_DEPTH] : depth;
    }
    printf("| %s | %g | %zu | %zu | %u to %u | %.1f | %u |\n", kind, side, n, w, least, most, (double)most / (double)n, depth);
}

static void spread(size_t n) {
    spread_copies(n, 1);
}

int main(void) {
    static const size_t copies[] = {64, 512, 4096};
    printf("| copies stand | cell's side | copies | waters | nodes | most for each copy | greatest depth |\n|---|---|---|---|---|---|---|\n");
    for (int i = 0; i < 3; i++)
        line("at random", 53, copies[i], 5000, spread);
    for (int i = 0; i < 3; i++)
        line("at random", 125, copies[i], ATOMS, spread);
    line("at random", 1000, 4096, ATOMS, spread);
    line("in pairs", 53, 4096, 5000, pair_up);
    line("in pairs", 125, 4096, ATOMS, pair_up);
    line("in pairs", 20000, 4096, ATOMS, pair_up);
    return 0;
}
