/* How long the calls take on frames at the limits, ordinary and slow ones: prints two markdown tables, processor time in seconds, one run each.
 * The argument, if there is one, is the cutoff. */
#include <time.h>

#include "frames.h"

static double now(void) {
    struct timespec s;
    clock_gettime(CLOCK_PROCESS_CPUTIME_ID, &s);
    return (double)s.tv_sec + 1e-9 * (double)s.tv_nsec;
}

static double timed(const char *what, uint32_t (*f)(void), uint32_t expected) {
    double start = now();
    expect(what, f(), expected);
    return now() - start;
}

/* ---- the whole frame, and its parts */

static void line(const char *copies) {
    double slowest = 0, rows = 0;
    select_copies();
    for (t.row = 0; t.row < t.n; t.row++) {
        double row = timed("row", call_row, BAITHRUM_DONE);
        rows += row;
        slowest = row > slowest ? row : slowest;
    }
    unsigned contacts = (unsigned)t.clusters[BAITHRUM_CLUSTER_CONTACTS];
    double dispersion = timed("dispersion", call_dispersion, BAITHRUM_DONE);
    double tree = timed("tree", call_tree, BAITHRUM_DONE);
    double report = timed("report", call_report, BAITHRUM_DONE);
    double frame = timed("frame", call_frame, BAITHRUM_DONE);
    printf("| %zu | %zu | %g | %s | %u | %.4f | %.3f | %.3f | %.3f | %.3f | %.3f |\n", t.n, t.per, t.cell[3], copies, contacts, slowest,
           rows, dispersion, tree, report, frame);
    fflush(stdout);
}

/* Copies that are near and do not touch: each with all its atoms in one of four places, 5.7 apart and never over 4 on an axis;
 * at another cutoff than 4.2 in proportion. */
static void crowd(size_t n, size_t per) {
    static const float places[4][3] = {{0, 0, 0}, {4, 4, 0}, {4, 0, 4}, {0, 4, 4}};
    float by = cutoff / BAITHRUM_CUTOFF;
    set_copies(n, per);
    for (size_t i = 0; i < t.s; i++) {
        const float *at = places[i / per % 4];
        put(t.solutes, i, 60 + by * at[0], 60 + by * at[1], 60 + by * at[2]);
    }
}

/* Four large copies that do not touch, whose boxes lie in one another: slanted sheets of 128 x 128 atoms, line by line, 5.4 apart; at another
 * cutoff than 4.2 in proportion. */
static void sheets(void) {
    float by = cutoff / BAITHRUM_CUTOFF;
    set_copies(4, 16384);
    for (size_t i = 0; i < t.s; i++) {
        float x = 0.5f * (float)(i / 128 % 128), y = 0.5f * (float)(i % 128);
        put(t.solutes, i, x, y, 0.5f * x + 6 * by * (float)(i / 16384));
    }
}

/* Copies in two places, as far from each other as the cell allows. */
static void two_places(size_t n, size_t per) {
    set_copies(n, per);
    for (size_t i = 0; i < t.s; i++) {
        float x = i / per % 2 == 0 ? 0 : t.cell[3] / 2;
        put(t.solutes, i, x, x, x);
    }
}

/* Copies and waters at random places of a cube, each copy moved by up to so many cells on each axis. */
static void at_random(float side, int cells) {
    seed(1);
    cube(side);
    spread_copies(COPIES, 16);
    scatter_images(cells);
    spread_waters(ATOMS);
}

static void frames(void) {
    printf("| copies | atoms each | cell's side | copies stand | contacts | slowest Row | all rows | Dispersion | Tree | Report | whole frame |\n"
           "|---|---|---|---|---|---|---|---|---|---|---|\n");
    at_random(125, 0);
    line("at random");
    at_random(125, 1);
    line("at random, moved by up to 1 cell");
    at_random(125, 20);
    line("at random, moved by up to 20 cells");
    crowd(COPIES, 16);
    line("near and not touching");
    crowd(4, 16384);
    line("near and not touching");
    scatter_images(20);
    line("near and not touching, moved by up to 20 cells");
    sheets();
    line("in slanted sheets");
    scatter_images(20);
    line("in slanted sheets, moved by up to 20 cells");
    at_random(8, 0);
    line("at random");
    two_places(COPIES, 16);
    line("in two places");
}

/* ---- the calls that no frame makes slow */

static void short_line(const char *call, const char *input, double seconds) {
    printf("| %s | %s | %.5f |\n", call, input, seconds);
}

static void short_calls(void) {
    printf("\n| call | input | seconds |\n|---|---|---|\n");
    seed(1);
    cube(125);
    spread_copies(COPIES, 16);
    short_line("Select", "4,096 x 16 atoms", timed("select", call_select, BAITHRUM_DONE));
    t.per = 1;
    t.k = INDICES;
    short_line("Select", "65,536 copies of one atom, 256 indices: 5", timed("select", call_select, BAITHRUM_COPIES));
    spread_copies(COPIES, 16);
    short_line("Open", "4,096 copies", timed("open", call_open, BAITHRUM_DONE));
    shape_table(STAR, 1);
    short_line("Close", "4,096 copies under one root", timed("close", call_close, BAITHRUM_DONE));
    shape_table(RISING, 1);
    short_line("Close", "a chain of 4,096", timed("close", call_close, BAITHRUM_DONE));
    short_line("Centers", "4,096 x 16 atoms", timed("centers", call_centers, BAITHRUM_DONE));
    scatter_images(20);
    short_line("Centers", "the same, moved by up to 20 cells", timed("centers", call_centers, BAITHRUM_DONE));
}

int main(int count, char **words) {
    if (count > 1)
        cutoff = strtof(words[1], NULL); /* 0, which Open refuses, where it is no number */
    printf("cutoff %g\n\n", cutoff);
    frames();
    short_calls();
    return 0;
}
