// Makes the vector files floor32.txt, round32.txt, widen.txt and narrow.txt: INPUTHEX OUTPUTHEX lines, inputs distinct.
// The answers are those of the C library and of the compiler's own conversions, never of the crate under test; only a NaN's
// bits come from docs/RULES.md, 'Numbers'. To make the files anew, from the folder of the crate:
//
//     gcc -std=c11 -O1 -fno-builtin -Wall -Wextra make/vectors.c -lm && ./a.out data && rm a.out
#include <gnu/libc-version.h>
#include <math.h>
#include <stdint.h>
#include <stdio.h>
#include <stdlib.h>
#include <string.h>

// Floats and their bits. Every NaN gives the bits that docs/RULES.md names.

static float float_of(uint32_t b) { float x; memcpy(&x, &b, sizeof x); return x; }
static double double_of(uint64_t b) { double x; memcpy(&x, &b, sizeof x); return x; }
static uint64_t bits32(float x) { uint32_t b; memcpy(&b, &x, sizeof b); return isnan(x) ? 0x7FC00000 : b; }
static uint64_t bits64(double x) { uint64_t b; memcpy(&b, &x, sizeof b); return isnan(x) ? 0x7FF8000000000000 : b; }

// The operations, from bits to bits.

static uint64_t floor32(uint64_t b) { return bits32(floorf(float_of((uint32_t)b))); }
static uint64_t round32(uint64_t b) { return bits32(roundf(float_of((uint32_t)b))); }
static uint64_t widen(uint64_t b) { volatile float x = float_of((uint32_t)b); return bits64((double)x); }
static uint64_t narrow(uint64_t b) { volatile double x = double_of(b); return bits32((float)x); }

// A file that is being made. A pattern that it has already is left out.

static FILE *out;
static uint64_t (*answer)(uint64_t);
static int in_digits, out_digits;
static uint64_t seen[4096];
static int count;

static void put(uint64_t b) {
    for (int i = 0; i < count; i++)
        if (seen[i] == b) return;
    if (count == 4096) abort();
    seen[count++] = b;
    fprintf(out, "%0*llX %0*llX\n", in_digits, (unsigned long long)b, out_digits, (unsigned long long)answer(b));
}

// b with both signs.
static void put_both(uint64_t b) {
    put(b);
    put(b | 1ull << (4 * in_digits - 1));
}

// b, one ulp below it and one above, with both signs. No b here is 0 or the last pattern.
static void put_near(uint64_t b) {
    put_both(b - 1);
    put_both(b);
    put_both(b + 1);
}

static void title(const char *text) { fprintf(out, "# %s\n", text); }

// Pseudo-random patterns: splitmix64 from a fixed seed, the same for each file.
static uint64_t state;
static uint64_t next(void) {
    uint64_t z = state += 0x9E3779B97F4A7C15;
    z = (z ^ z >> 30) * 0xBF58476D1CE4E5B9;
    z = (z ^ z >> 27) * 0x94D049BB133111EB;
    return z ^ z >> 31;
}

// The inputs of the three operations on an f32.
static void inputs32(void) {
    title("zeros and infinities");
    put_both(0);
    put_both(0x7F800000);

    title("NaNs: quiet and signalling, with and without a sign and a payload");
    static const uint32_t nans[] = {0x7FC00000, 0x7FC00001, 0x7FFFFFFF, 0x7FD55555,
        0x7F800001, 0x7FA00000, 0x7FBFFFFF, 0x7F812345};
    for (int i = 0; i < 8; i++) put_both(nans[i]);

    title("subnormals and the smallest normals");
    static const uint32_t small[] = {1, 2, 3, 0x400000, 0x7FFFFE, 0x7FFFFF, 0x800000, 0x800001, 0x1000000};
    for (int i = 0; i < 9; i++) put_both(small[i]);

    title("the largest finite values");
    put_both(0x7F7FFFFE);
    put_both(0x7F7FFFFF);

    title("quarters and halves from 0.25 to 4.5, each with the ulp below and above");
    for (int i = 1; i <= 18; i++) put_near(bits32((float)i * 0.25f));

    title("around the last halves, at 2^22, 2^23 and 2^24");
    static const float edges[] = {2097151.5f, 2097152.5f, 4194303.5f, 4194304.0f, 4194304.5f, 4194305.5f, 8388606.5f,
        8388607.0f, 8388607.5f, 8388608.0f, 8388609.0f, 16777215.0f, 16777216.0f, 16777218.0f};
    for (int i = 0; i < 14; i++) put_near(bits32(edges[i]));

    title("powers of two past the width of an integer, each with the ulp below and above");
    static const int powers[] = {31, 32, 63, 64, 100, 127};
    for (int i = 0; i < 6; i++) put_near(bits32(ldexpf(1.0f, powers[i])));

    title("pseudo-random, any pattern");
    for (int i = 0; i < 120; i++) put(next() >> 32);

    title("pseudo-random, from 2^-2 up to 2^24, either sign");
    for (int i = 0; i < 240; i++) {
        uint64_t exponent = 125 + next() % 26;
        put((next() & 0x807FFFFF) | exponent << 23);
    }
}

// The inputs of the narrowing. A tie lies halfway between two neighbours of f32: the 29 digits that do not fit are 1 0 .. 0.
static const uint64_t half = 0x10000000;

static void inputs64(void) {
    title("zeros and infinities");
    put_both(0);
    put_both(0x7FF0000000000000);

    title("NaNs: quiet and signalling, with and without a sign, with payloads in the digits that fit or only in the others");
    static const uint64_t nans[] = {0x7FF8000000000000, 0x7FF8000000000001, 0x7FFFFFFFFFFFFFFF, 0x7FF8000020000000,
        0x7FF0000000000001, 0x7FF000001FFFFFFF, 0x7FF0000020000000, 0x7FF4000000000000, 0x7FF7FFFFFFFFFFFF};
    for (int i = 0; i < 9; i++) put_both(nans[i]);

    title("small whole numbers, halves and fractions that no f32 is");
    static const double plain[] = {0.5, 1.0, 1.5, 2.5, 3.0, 0.1, 0.2, 0.3, 1.0 / 3.0, 2.0 / 3.0, 3.141592653589793,
        4194304.5, 8388607.5, 8388608.5, 16777215.0, 16777216.0, 16777217.0, 16777219.0, 4294967295.0, 4294967296.0};
    for (int i = 0; i < 20; i++) put_both(bits64(plain[i]));

    title("ties down to an even neighbour and up to one, with the ulp below and above, at several exponents");
    static const uint64_t exponents[] = {897, 898, 1022, 1023, 1046, 1047, 1149, 1150};
    for (int i = 0; i < 8; i++) {
        uint64_t at = exponents[i] << 52;
        put_near(at + half);
        put_near(at + 3 * half);
    }

    title("ties that carry into the next power of two, at the same exponents; the last is infinity");
    for (int i = 0; i < 8; i++) put_near((exponents[i] << 52) + 0xFFFFFE0000000 + half);

    title("the largest f32 and the value from which all is infinity, with their neighbours");
    put_near(0x47EFFFFFE0000000);
    put_near(0x47EFFFFFF0000000);
    put_near(0x47F0000000000000);
    put_both(0x7FE0000000000000);
    put_both(0x7FEFFFFFFFFFFFFE);
    put_both(0x7FEFFFFFFFFFFFFF);

    title("around the smallest normal f32 and the largest subnormal");
    put_near(0x3810000000000000);
    put_near(0x380FFFFFC0000000);
    put_near(0x380FFFFFE0000000);
    put_near(0x380FFFFFA0000000);

    title("around the smallest subnormals: multiples of 2^-150, each odd one a tie");
    for (int i = 1; i <= 12; i++) put_near(bits64(ldexp((double)i, -150)));

    title("ties among the subnormals of each size, with the ulp below and above");
    for (int size = 4; size <= 22; size += 3) {
        uint64_t whole = (next() & ((1u << size) - 1)) | 1u << size;
        put_near(bits64(ldexp((double)(2 * whole + 1), -150)));
    }

    title("below the smallest subnormal, down to the smallest f64");
    static const uint64_t low[] = {0x3680000000000000, 0x3670000000000000, 0x3000000000000000, 0x0010000000000000,
        0x000FFFFFFFFFFFFF, 0x0008000000000000, 2, 1};
    for (int i = 0; i < 8; i++) put_both(low[i]);

    title("pseudo-random, any pattern");
    for (int i = 0; i < 60; i++) put(next());

    title("pseudo-random, a normal f32 is near, either sign");
    for (int i = 0; i < 120; i++) {
        uint64_t exponent = 897 + next() % 254;
        put((next() & 0x800FFFFFFFFFFFFF) | exponent << 52);
    }

    title("pseudo-random ties, a normal f32 is near, either sign");
    for (int i = 0; i < 60; i++) {
        uint64_t exponent = 897 + next() % 254;
        put((next() & 0x800FFFFFE0000000) | exponent << 52 | half);
    }

    title("pseudo-random, a subnormal f32 or zero is near, either sign");
    for (int i = 0; i < 80; i++) {
        uint64_t exponent = 871 + next() % 26;
        put((next() & 0x800FFFFFFFFFFFFF) | exponent << 52);
    }
}

static void make(const char *folder, const char *name, const char *about, const char *source,
    uint64_t (*op)(uint64_t), int from, int to, void (*inputs)(void)) {
    char path[4096];
    snprintf(path, sizeof path, "%s/%s.txt", folder, name);
    out = fopen(path, "w");
    if (!out) { perror(path); exit(1); }
    answer = op;
    in_digits = from / 4;
    out_digits = to / 4;
    count = 0;
    state = 1;
    fprintf(out, "# %s: INPUTHEX OUTPUTHEX, inputs distinct.\n", about);
    fprintf(out, "# Source of the answers: %s, by make/vectors.c (gcc %s, glibc %s);\n", source, __VERSION__,
        gnu_get_libc_version());
    fprintf(out, "# for a NaN, the positive quiet NaN of docs/RULES.md.\n");
    inputs();
    if (fclose(out)) { perror(path); exit(1); }
    printf("%s: %d\n", name, count);
}

int main(int argc, char **argv) {
    if (argc != 2) { fprintf(stderr, "usage: %s FOLDER\n", argv[0]); return 1; }
    const char *in = argv[1];
    make(in, "floor32", "f32 floor", "floorf of the C library", floor32, 32, 32, inputs32);
    make(in, "round32", "f32 to the nearest whole number, halves away from zero", "roundf of the C library", round32,
        32, 32, inputs32);
    make(in, "widen", "f32 to f64, exact", "the compiler's conversion (double)x", widen, 32, 64, inputs32);
    make(in, "narrow", "f64 to f32, round to nearest, ties to even", "the compiler's conversion (float)x", narrow,
        64, 32, inputs64);
}
