/* The frame that is measured, every table that is lent for it, the calls on them, and a seeded generator of frames.
 * One program includes it at a time. The same seed gives the same frame on every machine. Lengths are in angstrom. */
#ifndef FRAMES_H
#define FRAMES_H

#include <stdint.h>
#include <stdio.h>
#include <stdlib.h>
#include <string.h>

#include "baithrum.h"

/* The limits, the nodes that no tree passes, and the words of the greatest cluster table. */
enum { ATOMS = BAITHRUM_MAX_ATOMS, COPIES = BAITHRUM_MAX_COPIES, PICKS = BAITHRUM_MAX_PICKS, INDICES = BAITHRUM_MAX_INDICES };
enum { NODES = BAITHRUM_ENOUGH_RECORDS(COPIES, ATOMS), TABLE = BAITHRUM_CLUSTER_WORDS(COPIES) };

/* Static, so that nothing of it lies on a stack. */
static struct {
    float cell[6], solutes[3 * ATOMS], waters[3 * ATOMS];
    size_t per, s, k, w; /* atoms per copy, solute atoms, indices, waters */
    size_t n, p;         /* kept copies and picks, as Select answered */
    size_t row, room;    /* the row to scan, the node records to lend */
    uint32_t indices[INDICES], starts[COPIES + 1], picks[PICKS], clusters[TABLE];
    uint32_t center_order[COPIES], water_order[ATOMS], records[8 * NODES], leaves[8 * NODES], answers[11];
    float centers[3 * COPIES], boxes[6 * NODES];
} t;

/* The cutoff of every call that takes one. */
static float cutoff = BAITHRUM_CUTOFF;

/* ---- the calls on it */

#define CELL t.cell[0], t.cell[1], t.cell[2], t.cell[3], t.cell[4], t.cell[5]
#define SOLUTES t.solutes, 3 * t.s
#define WATERS t.waters, 3 * t.w
#define LISTS t.starts, t.n + 1, t.picks, t.p
#define ORDERS t.center_order, COPIES, t.water_order, ATOMS
#define NODE_TABLES t.records, 8 * t.room, t.boxes, 6 * t.room
#define ANSWERS t.answers, 11

static inline uint32_t call_select(void) {
    return baithrum_select(SOLUTES, t.per, t.indices, t.k, t.starts, COPIES + 1, t.picks, PICKS, ANSWERS);
}

static inline uint32_t call_open(void) {
    return baithrum_open(t.clusters, TABLE, t.n, cutoff);
}

static inline uint32_t call_row(void) {
    return baithrum_row(CELL, cutoff, SOLUTES, LISTS, t.clusters, TABLE, t.row);
}

static inline uint32_t call_close(void) {
    return baithrum_close(t.clusters, TABLE, ANSWERS);
}

static inline uint32_t call_centers(void) {
    return baithrum_centers(CELL, SOLUTES, LISTS, t.centers, 3 * COPIES);
}

static inline uint32_t call_dispersion(void) {
    return baithrum_dispersion(CELL, SOLUTES, LISTS, ANSWERS);
}

static inline uint32_t call_tree(void) {
    return baithrum_tree(CELL, SOLUTES, WATERS, LISTS, ORDERS, NODE_TABLES, ANSWERS);
}

static inline uint32_t call_report(void) {
    return baithrum_report(CELL, SOLUTES, WATERS, LISTS, ORDERS, NODE_TABLES, t.leaves, 8 * t.room, ANSWERS);
}

static inline uint32_t call_frame(void) {
    return baithrum_frame(CELL, cutoff, SOLUTES, t.per, t.indices, t.k, WATERS, t.starts, COPIES + 1, t.picks, PICKS,
                          t.clusters, TABLE, ORDERS, NODE_TABLES, t.leaves, 8 * t.room, ANSWERS);
}

/* Ends the program where a call answers otherwise than the frame was made for. */
static inline void expect(const char *what, uint32_t number, uint32_t expected) {
    if (number == expected)
        return;
    fprintf(stderr, "%s: %u, %s; expected %u\n", what, (unsigned)number, baithrum_sentence(number), (unsigned)expected);
    exit(1);
}

/* The pick lists of the solutes, and a cluster table with no contact. */
static inline void select_copies(void) {
    expect("select", call_select(), BAITHRUM_DONE);
    t.n = t.answers[BAITHRUM_SELECT_COPIES];
    t.p = t.answers[BAITHRUM_SELECT_PICKS];
    expect("open", call_open(), BAITHRUM_DONE);
    t.row = 0;
    t.room = NODES;
}

/* ---- chance */

static uint64_t chance;

static inline void seed(uint64_t number) {
    chance = number;
}

/* splitmix64 */
static inline uint64_t draw(void) {
    uint64_t z = chance += 0x9e3779b97f4a7c15;
    z = (z ^ z >> 30) * 0xbf58476d1ce4e5b9;
    z = (z ^ z >> 27) * 0x94d049bb133111eb;
    return z ^ z >> 31;
}

/* From 0 up to 1; 24 bits, so that an f32 holds it. */
static inline float unit(void) {
    return (float)(draw() >> 40) * 0x1p-24f;
}

static inline int below(int n) {
    return (int)(draw() % (uint64_t)n);
}

/* ---- frames */

static inline void set_cell(float x, float y, float z) {
    float high[3] = {x, y, z};
    for (int a = 0; a < 3; a++) {
        t.cell[a] = 0;
        t.cell[3 + a] = high[a];
    }
}

static inline void cube(float e) {
    set_cell(e, e, e);
}

/* Point i of a list. */
static inline void put(float *list, size_t i, float x, float y, float z) {
    list[3 * i] = x;
    list[3 * i + 1] = y;
    list[3 * i + 2] = z;
}

static inline void put_anywhere(float *list, size_t i) {
    put(list, i, t.cell[3] * unit(), t.cell[4] * unit(), t.cell[5] * unit());
}

/* A point near another one of the list: up to half of `width` away on each axis. */
static inline void put_near(float *list, size_t i, size_t other, float width) {
    const float *o = list + 3 * other;
    put(list, i, o[0] + (unit() - 0.5f) * width, o[1] + (unit() - 0.5f) * width, o[2] + (unit() - 0.5f) * width);
}

/* How many copies there are and how many atoms each has; all are picked. */
static inline void set_copies(size_t n, size_t per) {
    t.per = per;
    t.s = n * per;
    t.k = 0;
}

/* How wide a molecule of so many atoms is: 1.7 for each atom along an edge. */
static inline float molecule_width(size_t per) {
    float edge = 1;
    while (edge * edge * edge < (float)per)
        edge += 0.25f;
    return 1.7f * edge;
}

/* Molecules at random places in the cell. */
static inline void spread_copies(size_t n, size_t per) {
    set_copies(n, per);
    for (size_t i = 0; i < n; i++) {
        put_anywhere(t.solutes, i * per);
        for (size_t k = 1; k < per; k++)
            put_near(t.solutes, i * per + k, i * per, molecule_width(per));
    }
    select_copies();
}

static inline void spread_waters(size_t w) {
    t.w = w;
    for (size_t i = 0; i < w; i++)
        put_anywhere(t.waters, i);
}

/* Every atom and water in one place. */
static inline void gather(size_t n, size_t per, size_t w, float x) {
    set_copies(n, per);
    t.w = w;
    for (size_t i = 0; i < t.s; i++)
        put(t.solutes, i, x, x, x);
    for (size_t i = 0; i < w; i++)
        put(t.waters, i, x, x, x);
    select_copies();
}

/* An atom moved by whole cells. */
static inline void shift(size_t atom, const int *cells) {
    for (int a = 0; a < 3; a++)
        t.solutes[3 * atom + a] += (float)cells[a] * t.cell[3 + a];
}

static inline void draw_cells(int *cells, int most) {
    for (int a = 0; a < 3; a++)
        cells[a] = below(2 * most + 1) - most;
}

/* Each copy moved by up to `most` cells on each axis, as trajectories leave molecules that have wandered. */
static inline void scatter_images(int most) {
    int cells[3];
    for (size_t i = 0; i < t.s; i++) {
        if (i % t.per == 0)
            draw_cells(cells, most);
        shift(i, cells);
    }
}

/* ---- cluster tables */

/* Parents: each its own; all under copy 0; i under i - 1; i under i + 1; a ring. */
enum parents { FLAT, STAR, FALLING, RISING, RING };

static inline uint32_t parent_of(enum parents shape, size_t i) {
    switch (shape) {
    case STAR:
        return 0;
    case FALLING:
        return i == 0 ? 0 : (uint32_t)i - 1;
    case RISING:
        return i + 1 == t.n ? (uint32_t)i : (uint32_t)i + 1;
    case RING:
        return (uint32_t)((i + 1) % t.n);
    default:
        return (uint32_t)i;
    }
}

/* A table of n copies with these parents and marks. */
static inline void shape_table(enum parents shape, uint32_t mark) {
    expect("open", call_open(), BAITHRUM_DONE);
    for (size_t i = 0; i < t.n; i++) {
        t.clusters[BAITHRUM_CLUSTER_PARENTS + i] = parent_of(shape, i);
        t.clusters[BAITHRUM_CLUSTER_MARKS(t.n) + i] = mark;
    }
}

#endif
