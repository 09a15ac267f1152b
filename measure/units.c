/* One frame in angstrom, and the same numbers taken for angstrom when they are nanometres: prints what the whole frame answers to each. */
#include "frames.h"

static void scale(float *list, size_t floats, float by) {
    for (size_t i = 0; i < floats; i++)
        list[i] *= by;
}

static void judge(const char *unit) {
    expect("frame", call_frame(), BAITHRUM_DONE);
    const uint32_t *a = t.answers;
    printf("| %s | %g | %.4f | %.4f | %.4f | %.4f | %u | %u | %u | %u |\n", unit, t.cell[3], baithrum_float(a[BAITHRUM_FRAME_LARGEST]),
           baithrum_float(a[BAITHRUM_FRAME_CONTACTED]), baithrum_float(a[BAITHRUM_FRAME_PAIR]), baithrum_float(a[BAITHRUM_FRAME_DISPERSION]),
           (unsigned)a[BAITHRUM_FRAME_NODES], (unsigned)a[BAITHRUM_FRAME_DEPTH], (unsigned)a[BAITHRUM_FRAME_LEAVES],
           (unsigned)a[BAITHRUM_FRAME_DRY]);
}

int main(void) {
    seed(1);
    cube(53);
    spread_copies(64, 16);
    spread_waters(5000);
    printf("| numbers in | cell's side | largest | contacted | pair | dispersion | nodes | depth | leaves | dry leaves |\n");
    printf("|---|---|---|---|---|---|---|---|---|---|\n");
    judge("angstrom");
    scale(t.cell, 6, 0.1f);
    scale(t.solutes, 3 * t.s, 0.1f);
    scale(t.waters, 3 * t.w, 0.1f);
    judge("nanometres");
    return 0;
}
