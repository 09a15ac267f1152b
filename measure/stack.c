/* The least stack on which each call answers, found by trying: a call runs in a child, on a stack of so many bytes below which nothing can
 * be read or written. Prints a markdown table. The caller that is counted with each call does nothing but make it, so that the bytes are
 * arguments that go by the stack, return addresses, and the call's own. */
#define _GNU_SOURCE
#include <sys/mman.h>
#include <sys/resource.h>
#include <sys/wait.h>
#include <unistd.h>

#include "frames.h"

/* What is tried, and as much again below it that is guarded. */
enum { MOST = 4 << 20, STEP = 16, LINE = 64 };

static char *bottom;

/* Calls f with the stack pointer at top. */
static uint32_t on_stack(char *top, uint32_t (*f)(void)) {
    uint32_t number;
    __asm__ volatile("movq %%rsp, %%rbx\n\tmovq %2, %%rsp\n\tcall *%1\n\tmovq %%rbx, %%rsp"
                     : "=a"(number)
                     : "r"(f), "r"(top)
                     : "rbx", "rcx", "rdx", "rsi", "rdi", "r8", "r9", "r10", "r11", "xmm0", "xmm1", "xmm2", "xmm3", "xmm4", "xmm5", "xmm6",
                       "xmm7", "xmm8", "xmm9", "xmm10", "xmm11", "xmm12", "xmm13", "xmm14", "xmm15", "cc", "memory");
    return number;
}

/* Whether f ends on a stack of so many bytes. It must answer `expected` then; a child that ends otherwise than by a fault ends all. */
static int enough(uint32_t (*f)(void), uint32_t expected, size_t bytes) {
    pid_t child = fork();
    if (child == 0)
        _exit(on_stack(bottom + bytes, f) == expected ? 0 : 1);
    int status;
    if (child < 0 || waitpid(child, &status, 0) != child)
        exit(1);
    if (WIFSIGNALED(status) && WTERMSIG(status) == SIGSEGV)
        return 0;
    if (WIFEXITED(status) && WEXITSTATUS(status) == 0)
        return 1;
    fprintf(stderr, "stack: another answer than %u\n", (unsigned)expected);
    exit(1);
}

/* The least number of bytes that is enough, wherever in a cache line the stack begins. */
static size_t least(uint32_t (*f)(void), uint32_t expected) {
    size_t no = 0, yes = MOST;
    if (!enough(f, expected, yes))
        exit(1);
    while (yes - no > STEP) {
        size_t half = (no + (yes - no) / 2) / STEP * STEP;
        if (enough(f, expected, half))
            yes = half;
        else
            no = half;
    }
    for (size_t tried = yes + STEP; tried < yes + LINE; tried += STEP)
        if (!enough(f, expected, tried))
            yes = tried + STEP;
    return yes;
}

static const char *call;
static size_t greatest;

/* Starts the lines of a call. */
static void begin(const char *name) {
    call = name;
    greatest = 0;
}

static void line(const char *input, uint32_t (*f)(void), uint32_t expected) {
    size_t bytes = least(f, expected);
    printf("| %s | %s | %zu |\n", call, input, bytes);
    fflush(stdout);
    if (bytes > greatest)
        greatest = bytes;
}

/* An input that takes long: it is tried on what the shorter ones need, and no more. */
static void holds(const char *input, uint32_t (*f)(void), uint32_t expected) {
    int yes = enough(f, expected, greatest);
    printf("| %s | %s | %s%zu |\n", call, input, yes ? "" : "over ", greatest);
    fflush(stdout);
}

/* ---- inputs */

static void ordinary(void) {
    seed(1);
    cube(53);
    spread_copies(64, 16);
    spread_waters(5000);
}

static void greatest_lists(void) {
    seed(2);
    cube(125);
    spread_copies(COPIES, 16);
    spread_waters(ATOMS);
}

/* Copies left in other images of the cell. */
static void wandered(void) {
    seed(3);
    cube(53);
    spread_copies(COPIES, 1);
    scatter_images(20);
    spread_waters(5);
}

/* Pairs of copies in one place: the tree goes down to depth 14. */
static void deep(void) {
    seed(4);
    cube(60000);
    set_copies(64, 1);
    for (size_t i = 0; i < t.s; i += 2) {
        put_anywhere(t.solutes, i);
        put_near(t.solutes, i + 1, i, 0);
    }
    select_copies();
    spread_waters(5000);
    expect("tree", call_tree(), BAITHRUM_DONE);
    if (t.answers[BAITHRUM_TREE_DEPTH] != 14)
        exit(1);
}

/* So far from a cell so small that a wrapped point still lies many cells outside, and every rounding is the general one. */
static void far_off(void) {
    seed(5);
    cube(0.001f);
    set_copies(64, 1);
    t.w = 64;
    for (size_t i = 0; i < t.s; i++) {
        put(t.solutes, i, 1e6f * unit(), 1e6f * unit(), 1e6f * unit());
        put(t.waters, i, 1e6f * unit(), 1e6f * unit(), 1e6f * unit());
    }
    select_copies();
}

static void over_limit(void) {
    ordinary();
    t.solutes[3 * t.s - 1] = 2000000;
}

/* What each call makes of an input that an earlier test refuses. */
static void refusals(uint32_t (*f)(void)) {
    over_limit();
    line("a coordinate over its limit", f, BAITHRUM_COORDINATE);
}

static void few_copies(void) {
    cube(16);
    gather(1, 1, 1, 1);
}

static const struct {
    enum parents shape;
    const char *name;
} shapes[] = {{FLAT, "flat: 4,096 roots"},
              {STAR, "flat: 4,096 copies under one root"},
              {FALLING, "deep: a chain of 4,096, falling"},
              {RISING, "deep: a chain of 4,096, rising"}};

int main(void) {
    struct rlimit none = {0, 0};
    setrlimit(RLIMIT_CORE, &none);
    char *guard = mmap(NULL, 2 * (size_t)MOST, PROT_NONE, MAP_PRIVATE | MAP_ANONYMOUS, -1, 0);
    if (guard == MAP_FAILED || mprotect(guard + MOST, MOST, PROT_READ | PROT_WRITE) != 0)
        return 1;
    bottom = guard + MOST;
    size_t count = sizeof shapes / sizeof shapes[0];

    printf("| call | input | bytes |\n|---|---|---|\n");
    begin("select");
    set_copies(64, 16);
    line("a program's first call, memcpy and memset not yet bound", call_select, BAITHRUM_DONE);
    begin("select");
    greatest_lists();
    line("4,096 x 16 atoms", call_select, BAITHRUM_DONE);
    t.k = INDICES;
    line("the same, 256 indices", call_select, BAITHRUM_PICKS);
    refusals(call_select);

    begin("open");
    line("4,096 copies", call_open, BAITHRUM_DONE);

    begin("row");
    for (size_t i = 0; i < count; i++) {
        wandered();
        shape_table(shapes[i].shape, 0);
        line(shapes[i].name, call_row, BAITHRUM_DONE);
    }
    shape_table(RING, 0);
    line("a ring of 4,096", call_row, BAITHRUM_TABLE);
    greatest_lists();
    line("4,096 x 16 atoms", call_row, BAITHRUM_DONE);
    cube(8);
    line("the same in a cube of 8", call_row, BAITHRUM_DONE);
    far_off();
    line("far from a cell of 0.001", call_row, BAITHRUM_DONE);
    refusals(call_row);

    begin("close");
    wandered();
    for (size_t i = 0; i < count; i++) {
        shape_table(shapes[i].shape, 1);
        line(shapes[i].name, call_close, BAITHRUM_DONE);
    }
    shape_table(RING, 1);
    line("a ring of 4,096", call_close, BAITHRUM_TABLE);
    shape_table(RISING, 0);
    line("a deep chain, no row scanned", call_close, BAITHRUM_ROW_LEFT);

    begin("centers");
    greatest_lists();
    line("4,096 x 16 atoms", call_centers, BAITHRUM_DONE);
    wandered();
    line("4,096 copies up to 20 cells away", call_centers, BAITHRUM_DONE);
    refusals(call_centers);

    begin("dispersion");
    few_copies();
    line("one copy", call_dispersion, BAITHRUM_DONE);
    wandered();
    line("4,096 copies up to 20 cells away", call_dispersion, BAITHRUM_DONE);
    far_off();
    line("far from a cell of 0.001", call_dispersion, BAITHRUM_DONE);
    refusals(call_dispersion);

    static const struct {
        const char *name;
        uint32_t (*f)(void);
    } whole[] = {{"tree", call_tree}, {"report", call_report}, {"frame", call_frame}};
    for (size_t i = 0; i < sizeof whole / sizeof whole[0]; i++) {
        begin(whole[i].name);
        ordinary();
        line("64 x 16 atoms, 5,000 waters", whole[i].f, BAITHRUM_DONE);
        t.room = 10;
        line("the same, ten records", whole[i].f, BAITHRUM_NODES);
        deep();
        line("pairs in one place: depth 14", whole[i].f, BAITHRUM_DONE);
        far_off();
        line("far from a cell of 0.001", whole[i].f, BAITHRUM_DONE);
        refusals(whole[i].f);
        greatest_lists();
        holds("4,096 x 16 atoms, 65,536 waters", whole[i].f, BAITHRUM_DONE);
    }
    return 0;
}
