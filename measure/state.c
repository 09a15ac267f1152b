/* What the floating-point state does to answers: prints a line of a markdown table. The first argument is the state, `plain` for the one that
 * the program was linked to start with, `reset` for MXCSR set to 1F80, `upward` for rounding upward, `invalid` and `inexact` for that exception
 * trapped; the second is what the line is called. */
#define _GNU_SOURCE
#include <fenv.h>
#include <sys/wait.h>
#include <unistd.h>
#include <xmmintrin.h>

#include "frames.h"

/* the exception flags of MXCSR */
#define FLAGS 0x3fu

static void judge(void) {
    set_copies(2, 1);
    select_copies();
    expect("frame", call_frame(), BAITHRUM_DONE);
}

/* A water a hair below the cell: its wrap divides -1e-37 by 100. */
static unsigned dry_leaves(void) {
    cube(100);
    put(t.solutes, 0, 10, 10, 10);
    put(t.solutes, 1, 90, 10, 10);
    t.w = 2;
    put(t.waters, 0, -1e-37f, 10, 10);
    put(t.waters, 1, 10, 10, 10);
    judge();
    return (unsigned)t.answers[BAITHRUM_FRAME_DRY];
}

/* Two copies just at the cutoff. */
static float largest(void) {
    cube(16);
    put(t.solutes, 0, 0, 0, 0);
    put(t.solutes, 1, cutoff, 0, 0);
    t.w = 1;
    put(t.waters, 0, 1, 1, 1);
    judge();
    return baithrum_float(t.answers[BAITHRUM_FRAME_LARGEST]);
}

int main(int count, char **words) {
    if (count != 3)
        return 2;
    const char *state = words[1];
    if (strcmp(state, "upward") == 0)
        fesetround(FE_UPWARD);
    if (strcmp(state, "invalid") == 0)
        feenableexcept(FE_INVALID);
    if (strcmp(state, "inexact") == 0)
        feenableexcept(FE_INEXACT);
    if (strcmp(state, "reset") == 0)
        _mm_setcsr(0x1f80);
    unsigned mxcsr = _mm_getcsr();
    printf("| %s | %04X | ", words[2], mxcsr & ~FLAGS);
    fflush(stdout);
    /* a child, as a trap ends it */
    pid_t child = fork();
    if (child == 0) {
        unsigned dry = dry_leaves();
        /* the flags of the second frame alone, which has no number out of the ordinary */
        _mm_setcsr(mxcsr & ~FLAGS);
        float fraction = largest();
        printf("%u | %g | %02X |\n", dry, fraction, _mm_getcsr() & FLAGS);
        fflush(stdout);
        _exit(0);
    }
    int status;
    if (child < 0 || waitpid(child, &status, 0) != child)
        return 1;
    if (WIFSIGNALED(status))
        printf("%s | | |\n", strsignal(WTERMSIG(status)));
    return 0;
}
