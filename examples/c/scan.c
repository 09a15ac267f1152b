/* Reads a block from standard input (docs/RULES.md, 'Program `frame`'), selects, scans its rows and prints the three fractions.
 * The cutoff, in angstrom, is its argument, or 4.2 where it has none. Built by examples/c/build. */
#include <stdio.h>
#include <stdlib.h>

#include "baithrum.h"

enum { BLOCK = 60000, HEAD = 46, WORDS = (BLOCK - HEAD) / 4 };

/* enough for every block */
enum {
    STARTS = BAITHRUM_STARTS(BAITHRUM_MAX_COPIES),
    PICKS = BAITHRUM_MAX_PICKS,
    TABLE = BAITHRUM_CLUSTER_WORDS(BAITHRUM_MAX_COPIES)
};

static unsigned char block[BLOCK + 1];
static uint32_t indices[WORDS], starts[STARTS], picks[PICKS], table[TABLE];
static float solutes[WORDS];

static uint32_t word(size_t at) {
    const unsigned char *p = block + at;
    return p[0] | (uint32_t)p[1] << 8 | (uint32_t)p[2] << 16 | (uint32_t)p[3] << 24;
}

static int refused(const char *call, uint32_t number) {
    printf("%s: refused %u, %s\n", call, (unsigned)number, baithrum_sentence(number));
    return 1;
}

int main(int count, char **words) {
    float cutoff = BAITHRUM_CUTOFF;
    char *end = "";
    if (count > 1)
        cutoff = strtof(words[1], &end);
    if (*end != '\0') {
        fprintf(stderr, "usage: scan [CUTOFF] < BLOCK\n");
        return 2;
    }
    size_t size = fread(block, 1, sizeof block, stdin);
    if (size < HEAD || size > BLOCK || word(0) != size - 4 || block[4] != 1 || block[5] != 0)
        return refused("block", BAITHRUM_BLOCK);
    /* 64-bit sums, so that no count comes round to a true length */
    uint64_t per = word(6), s = word(10), k = word(14), w = word(18);
    if (size != HEAD + 4 * k + 12 * (s + w))
        return refused("block", BAITHRUM_BLOCK);
    float c[6];
    for (size_t i = 0; i < 6; i++)
        c[i] = baithrum_float(word(22 + 4 * i));
    for (size_t i = 0; i < k; i++)
        indices[i] = word(HEAD + 4 * i);
    for (size_t i = 0; i < 3 * s; i++)
        solutes[i] = baithrum_float(word(HEAD + 4 * k + 4 * i));

    uint32_t kept[BAITHRUM_SELECT_ANSWERS], fractions[BAITHRUM_CLOSE_ANSWERS], number;
    number = baithrum_select(solutes, 3 * s, per, indices, k, starts, STARTS, picks, PICKS, kept, BAITHRUM_SELECT_ANSWERS);
    if (number != 0)
        return refused("select", number);
    size_t n = kept[BAITHRUM_SELECT_COPIES], p = kept[BAITHRUM_SELECT_PICKS];
    number = baithrum_open(table, TABLE, n, cutoff);
    if (number != 0)
        return refused("open", number);
    for (size_t i = 0; i < n; i++) {
        number = baithrum_row(c[0], c[1], c[2], c[3], c[4], c[5], cutoff, solutes, 3 * s, starts, BAITHRUM_STARTS(n), picks, p,
                              table, BAITHRUM_CLUSTER_WORDS(n), i);
        if (number != 0)
            return refused("row", number);
    }
    number = baithrum_close(table, BAITHRUM_CLUSTER_WORDS(n), fractions, BAITHRUM_CLOSE_ANSWERS);
    if (number != 0)
        return refused("close", number);
    printf("copies %u, picks %u, cutoff %g, contacts %u\n", (unsigned)n, (unsigned)p,
           baithrum_float(table[BAITHRUM_CLUSTER_CUTOFF]), (unsigned)table[BAITHRUM_CLUSTER_CONTACTS]);
    printf("largest %.9g\ncontacted %.9g\npair %.9g\n", baithrum_float(fractions[BAITHRUM_CLOSE_LARGEST]),
           baithrum_float(fractions[BAITHRUM_CLOSE_CONTACTED]), baithrum_float(fractions[BAITHRUM_CLOSE_PAIR]));
    return 0;
}
