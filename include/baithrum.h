/* Baithrum from C: one frame of a simulated box of water, judged call by call. For x86-64 Linux. Link libmixing_c.a, which `rt lib` in
 * crates/mixing_c writes to out/ there; it asks for memcpy and memset and nothing else:
 *
 *     gcc -Iinclude -o prog prog.c crates/mixing_c/out/libmixing_c.a
 *
 * Refusals, tables and answers in a comment are the function's proved promise (crates/mixing_c/src/lib.rt), for every input: a call ends, stays
 * inside the tables it was lent, refuses exactly where the comment says, and leaves every table entry as the comment says. docs/RULES.md has
 * the exact rules, docs/MANUAL.md how the calls go together, what they cost, and what to do at a refusal.
 *
 * Numbers. Lengths are in angstrom. Coordinates are f32, x y z in turn. A water is one point, its oxygen: a list of all its atoms counts as
 * three waters. A cell is rectangular, six f32, low x y z and high x y z. Two copies touch if a picked atom of one and a picked atom of the
 * other are at most the cutoff apart (at it they touch), by the nearest image: their squared distance is at most cutoff x cutoff, one f32
 * product. The cutoff is the caller's, above 0 and at most 16. The shell of the leaf report is another length, 4.2 with every cutoff.
 *
 * Tables. A table is a pointer and its number of entries (not bytes). Entries past what an answer needs keep their values. A refusal
 * changes no table; the one exception is 13. Of a float table (centers, boxes) the promise is up to a NaN's payload: an entry that held a
 * NaN holds a NaN. The code neither reads nor stores an entry that keeps its value, so the payload stays too; that is not proved.
 *
 * Answers. The result is 0, or the number of the first refusal in the order that the comment gives. What a call answers beyond that goes to
 * `answers`, a word for each value, floats as the bits of an f32: as many of the values as the table holds, from its start. The rest
 * of the table keeps its values, and so does all of it at a refusal. A short `answers` is no refusal.
 *
 * Trusted, for no promise can say it, and nothing notices where it is not so:
 * - Each pointer is aligned, not null (with 0 entries too), and good for its number of entries. Lengths are right: a call goes as far as it
 *   is told.
 * - No table that a call writes overlaps another table of that call. While a call runs nothing else writes its tables, nor reads those that
 *   it writes. No call keeps anything between calls, allocates, or prints, so calls on different tables may run at the same time.
 * - The thread's floating-point state is the one that a program starts with: rounding to nearest, no flush to zero, no exception trapped; MXCSR
 *   is 1F80 but for its flags. Linked with -ffast-math (gcc: -Ofast and -funsafe-math-optimizations too) a program or shared library starts with
 *   another, and fesetround sets one: answers may change then. Where invalid or inexact is trapped, a call may end in SIGFPE. A call leaves the
 *   state as it is, but for flags, which ordinary frames set. _mm_setcsr(0x1F80) before a call mends all of these.
 * - The stack has room, beside the lent tables. The least on which a call answers, measured (measure/run stack), in bytes: Select, Open and
 *   Centers under 500 (where the call is the first to bind memcpy or memset lazily, 3,400), Row 8,912, Close 24,736, Dispersion 50,208,
 *   Tree 1,173,280, Report 1,173,920, the whole frame 1,289,264.
 */
#ifndef BAITHRUM_H
#define BAITHRUM_H

#include <stddef.h>
#include <stdint.h>
#include <string.h>

#ifdef __cplusplus
extern "C" {
#endif

/* The version of this header, 0.2.1: 10,000 times the first part, 100 times the second, and the third. The third grows where a caller sees
 * no change, the second with every addition, the first where a name, a number or a meaning changes; while the first is 0, that may come
 * with the second. The archive does not carry it: take both from one tree. */
#define BAITHRUM_VERSION 201

/* What a call results in. A number keeps its meaning in every call. */
enum {
    BAITHRUM_DONE = 0,
    BAITHRUM_RAGGED = 1,
    BAITHRUM_LONG = 2,
    BAITHRUM_BOUND = 3,
    BAITHRUM_COORDINATE = 4,
    BAITHRUM_COPIES = 5,
    BAITHRUM_PICKS = 6,
    BAITHRUM_SHORT = 7,
    BAITHRUM_LISTS = 8,
    BAITHRUM_TABLE = 9,
    BAITHRUM_NO_ROW = 10,
    BAITHRUM_ROW_AGAIN = 11,
    BAITHRUM_ROW_LEFT = 12,
    BAITHRUM_NODES = 13,
    BAITHRUM_BLOCK = 14,
    BAITHRUM_CELL = 15,
    BAITHRUM_REACH = 16,
    BAITHRUM_OTHER_CUTOFF = 17
};

/* The sentence for a result. */
static inline const char *baithrum_sentence(uint32_t number) {
    switch (number) {
    case BAITHRUM_DONE:
        return "done";
    case BAITHRUM_RAGGED:
        return "the length of a coordinate list is no multiple of three";
    case BAITHRUM_LONG:
        return "a list is over its limit: 65,536 solute atoms, 65,536 waters, 256 indices";
    case BAITHRUM_BOUND:
        return "a finite bound of the cell is over 65,536 angstrom in magnitude";
    case BAITHRUM_COORDINATE:
        return "a finite coordinate is over 1,048,576 angstrom in magnitude";
    case BAITHRUM_COPIES:
        return "there are over 4,096 copies";
    case BAITHRUM_PICKS:
        return "there are over 65,536 picks";
    case BAITHRUM_SHORT:
        return "a lent table is too short for the answer";
    case BAITHRUM_LISTS:
        return "the pick lists are unsound";
    case BAITHRUM_TABLE:
        return "the cluster table is unsound";
    case BAITHRUM_NO_ROW:
        return "the row is not below the number of copies";
    case BAITHRUM_ROW_AGAIN:
        return "the row was scanned before";
    case BAITHRUM_ROW_LEFT:
        return "some row was not scanned";
    case BAITHRUM_NODES:
        return "the tree has more nodes than the smallest node table has whole records";
    case BAITHRUM_BLOCK:
        return "the block is not one that the program `frame` reads";
    case BAITHRUM_CELL:
        return "the cell is not valid: an extent is not finite or not above 2^-23 angstrom";
    case BAITHRUM_REACH:
        return "the cutoff is not finite, not above 0 or above 16 angstrom";
    case BAITHRUM_OTHER_CUTOFF:
        return "the row's cutoff differs in bits from the table's";
    default:
        return "no result of this library";
    }
}

/* The limits: solute atoms, and waters; indices; kept copies; picks; a finite bound of the cell and a finite coordinate, in magnitude, in
 * angstrom; the cutoff, in angstrom. */
#define BAITHRUM_MAX_ATOMS 65536
#define BAITHRUM_MAX_INDICES 256
#define BAITHRUM_MAX_COPIES 4096
#define BAITHRUM_MAX_PICKS 65536
#define BAITHRUM_MAX_BOUND 65536.0f
#define BAITHRUM_MAX_COORDINATE 1048576.0f
#define BAITHRUM_MAX_REACH 16.0f

/* The original's cutoff, in angstrom, which the program `frame` uses. */
#define BAITHRUM_CUTOFF 4.2f

/* Entries that n copies need: words of starts, words of the cluster table, floats of centers. center_order needs n, picks one for each
 * pick, water_order one for each finite water. */
#define BAITHRUM_STARTS(n) ((size_t)(n) + 1)
#define BAITHRUM_CLUSTER_WORDS(n) (3 + 3 * (size_t)(n))
#define BAITHRUM_CENTER_FLOATS(n) (3 * (size_t)(n))

/* Node records that are never refused 13, for n copies and so many waters (docs/MANUAL.md, 'Node records': most frames need far fewer). */
#define BAITHRUM_ENOUGH_RECORDS(n, waters) (8 * (size_t)(n) + (size_t)(waters))

/* Entries for each node: words of its record, floats of its box, words of the leaf table (room for a leaf is asked for each node). */
#define BAITHRUM_RECORD_WORDS 8
#define BAITHRUM_BOX_FLOATS 6
#define BAITHRUM_LEAF_WORDS 8

/* How many answers each call has that has any, and where they stand. Fractions and dispersion are bits, for baithrum_float. */
#define BAITHRUM_SELECT_ANSWERS 2
#define BAITHRUM_CLOSE_ANSWERS 3
#define BAITHRUM_DISPERSION_ANSWERS 1
#define BAITHRUM_TREE_ANSWERS 2
#define BAITHRUM_REPORT_ANSWERS 4
#define BAITHRUM_FRAME_ANSWERS 11

enum { BAITHRUM_SELECT_COPIES = 0, BAITHRUM_SELECT_PICKS = 1 };

enum { BAITHRUM_CLOSE_LARGEST = 0, BAITHRUM_CLOSE_CONTACTED = 1, BAITHRUM_CLOSE_PAIR = 2 };

enum { BAITHRUM_TREE_NODES = 0, BAITHRUM_TREE_DEPTH = 1 };

enum { BAITHRUM_REPORT_NODES = 0, BAITHRUM_REPORT_DEPTH = 1, BAITHRUM_REPORT_LEAVES = 2, BAITHRUM_REPORT_DRY = 3 };

enum {
    BAITHRUM_FRAME_BLANK = 0,
    BAITHRUM_FRAME_COPIES = 1,
    BAITHRUM_FRAME_PICKS = 2,
    BAITHRUM_FRAME_LARGEST = 3,
    BAITHRUM_FRAME_CONTACTED = 4,
    BAITHRUM_FRAME_PAIR = 5,
    BAITHRUM_FRAME_DISPERSION = 6,
    BAITHRUM_FRAME_NODES = 7,
    BAITHRUM_FRAME_DEPTH = 8,
    BAITHRUM_FRAME_LEAVES = 9,
    BAITHRUM_FRAME_DRY = 10
};

/* The words of a cluster table of n copies: n, the contacts, the cutoff's bits, then n parents, n degrees and n marks. */
enum { BAITHRUM_CLUSTER_COPIES = 0, BAITHRUM_CLUSTER_CONTACTS = 1, BAITHRUM_CLUSTER_CUTOFF = 2, BAITHRUM_CLUSTER_PARENTS = 3 };
#define BAITHRUM_CLUSTER_DEGREES(n) (3 + (size_t)(n))
#define BAITHRUM_CLUSTER_MARKS(n) (3 + 2 * (size_t)(n))

/* The words of a node record; the eighth is 0. */
enum {
    BAITHRUM_RECORD_DEPTH = 0,
    BAITHRUM_RECORD_FIRST_CENTER = 1,
    BAITHRUM_RECORD_CENTERS = 2,
    BAITHRUM_RECORD_FIRST_WATER = 3,
    BAITHRUM_RECORD_WATERS = 4,
    BAITHRUM_RECORD_CHILDREN = 5,
    BAITHRUM_RECORD_AFTER = 6
};

/* The words of a leaf; the eighth is 0. Both occupancies and the partition score are bits; a dry occupancy is 0. */
enum {
    BAITHRUM_LEAF_NODE = 0,
    BAITHRUM_LEAF_CENTERS = 1,
    BAITHRUM_LEAF_WATERS = 2,
    BAITHRUM_LEAF_BOX_OCCUPANCY = 3,
    BAITHRUM_LEAF_SHELL_WATERS = 4,
    BAITHRUM_LEAF_SHELL_OCCUPANCY = 5,
    BAITHRUM_LEAF_PARTITION = 6
};

/* The float of a word that holds its bits. */
static inline float baithrum_float(uint32_t bits) {
    float x;
    memcpy(&x, &bits, sizeof x);
    return x;
}

/* The bits of a float, as a table holds a cutoff. */
static inline uint32_t baithrum_bits(float x) {
    uint32_t bits;
    memcpy(&bits, &x, sizeof bits);
    return bits;
}

/* A pointer for a list or a table of so many entries: p, and with 0 entries one that is not null, whatever p is. For callers whose empty
 * list is null, as data() of an empty std::vector is. Null with entries stays null, for no pointer stands in for those. */
static inline const uint32_t *baithrum_words(const uint32_t *p, size_t entries) {
    static const uint32_t none = 0;
    return entries == 0 ? &none : p;
}

static inline const float *baithrum_floats(const float *p, size_t entries) {
    static const float none = 0;
    return entries == 0 ? &none : p;
}

static inline uint32_t *baithrum_lent_words(uint32_t *p, size_t entries) {
    static uint32_t none = 0;
    return entries == 0 ? &none : p;
}

static inline float *baithrum_lent_floats(float *p, size_t entries) {
    static float none = 0;
    return entries == 0 ? &none : p;
}

/* Select: which atoms count. Copies are whole chunks of `per` solute atoms; 0 gives none, a trailing short chunk is dropped. Of each copy
 * the indices pick atoms, in list order and repeats again; those past the copy or not finite are skipped. Where nothing was picked, as
 * with no indices, all finite atoms of the copy are. A copy with no pick vanishes.
 * Writes the pick lists: starts (kept copies + 1 words: where each copy's picks start, then their number) and picks (atom numbers among
 * all solute atoms).
 * Answers: kept copies, picks.
 * Refusals: 1, 2, 4, 5, 6, 7 (starts shorter than kept copies + 1, or picks than the picks). */
uint32_t baithrum_select(const float *solutes, size_t solutes_len, size_t per, const uint32_t *indices, size_t indices_len,
                         uint32_t *starts, size_t starts_len, uint32_t *picks, size_t picks_len,
                         uint32_t *answers, size_t answers_len);

/* Row, Centers, Dispersion, Tree and Report take the pick lists exactly: starts_len is kept copies + 1, picks_len the picks. 8 is refused
 * unless starts begins at 0, rises strictly, has n + 1 words with n at most 4,096 and ends at picks_len, at most 65,536, and each pick names
 * a finite atom. */

/* Open: a cluster table of n copies with no contact, for a scan at this cutoff.
 * Writes 3 + 3n words: n, contacts 0, the cutoff's bits, then n parents (each copy its own), n degrees 0, n marks 0.
 * Refusals: 5, 16, 7 (table shorter than 3 + 3n). */
uint32_t baithrum_open(uint32_t *table, size_t table_len, size_t n, float cutoff);

/* Row: scans row i, which tests copy i against each later copy. Rows may come in any order, each once, with the cutoff of the table.
 * Writes the table: each touch at the cutoff joins the root of j under the root of i, shortens chains, and raises both degrees and the
 * contacts; then mark i becomes 1.
 * Refusals: 1, 2, 3, 4, 15, 8, 16, 7 (table shorter than 3 + 3n), 9 (n differs from the pick lists', a parent is not below n, a copy does
 * not reach a root in n steps, a degree is not below n, a mark is above 1, or contacts exceed n(n-1)/2; the cutoff's word may be any), 17
 * (the cutoff's bits are not that word), 10, 11. */
uint32_t baithrum_row(float lx, float ly, float lz, float hx, float hy, float hz, float cutoff, const float *solutes, size_t solutes_len,
                      const uint32_t *starts, size_t starts_len, const uint32_t *picks, size_t picks_len,
                      uint32_t *table, size_t table_len, size_t i);

/* Close: the fractions of a scanned table, which it reads alone, with the table's own n; the cutoff's word may be any. It writes no table
 * but the answers.
 * Answers: largest fraction ((largest cluster - 1) / (n - 1)), contacted fraction (copies with a contact / n), pair fraction (contacts /
 * (n(n-1)/2)), each one f32 division; zeros below two copies.
 * Refusals: 7 (table shorter than three words or than 3 + 3n), 9 (as in Row, and n over 4,096), 12. */
uint32_t baithrum_close(const uint32_t *table, size_t table_len, uint32_t *answers, size_t answers_len);

/* Centers: the center of each copy by its picks, wrapped (in the cell but for rounding).
 * Writes centers: x y z for each copy in order, 3n floats.
 * Refusals: 1, 2, 3, 4, 15, 8, 7 (centers shorter than 3n). */
uint32_t baithrum_centers(float lx, float ly, float lz, float hx, float hy, float hz, const float *solutes, size_t solutes_len,
                          const uint32_t *starts, size_t starts_len, const uint32_t *picks, size_t picks_len,
                          float *centers, size_t centers_len);

/* Dispersion: how far apart the centers are, as a ratio to centers at random places.
 * Answers: the score, 0 to 1; 1 below two copies.
 * Refusals: 1, 2, 3, 4, 15, 8. */
uint32_t baithrum_dispersion(float lx, float ly, float lz, float hx, float hy, float hz, const float *solutes, size_t solutes_len,
                             const uint32_t *starts, size_t starts_len, const uint32_t *picks, size_t picks_len,
                             uint32_t *answers, size_t answers_len);

/* Tree: the octree over the centers (wrapped once more) and the finite waters (wrapped, numbered without the others).
 * Writes center_order (n words) and water_order (a word for each finite water): the points in the order of the tree's nodes; records,
 * eight words for each node in preorder: depth, first center, centers, first water, waters, children, node after its subtree, 0; boxes,
 * six floats for each node: low x y z, high x y z.
 * Answers: nodes, greatest depth, both 0 without nodes.
 * Refusals: 1, 2, 3, 4, 15, 8, 7 (an order list too short), 13 (more nodes than the whole records of the smaller node table). At 13
 * the whole of both node tables is zero and the order lists are 0, 1, 2, .. over the points. */
uint32_t baithrum_tree(float lx, float ly, float lz, float hx, float hy, float hz, const float *solutes, size_t solutes_len,
                       const float *waters, size_t waters_len, const uint32_t *starts, size_t starts_len,
                       const uint32_t *picks, size_t picks_len, uint32_t *center_order, size_t center_order_len,
                       uint32_t *water_order, size_t water_order_len, uint32_t *records, size_t records_len,
                       float *boxes, size_t boxes_len, uint32_t *answers, size_t answers_len);

/* Report: does what Tree does, in the same tables, and lists the leaves that have centers.
 * Writes what Tree writes, and leaves, eight words for each such leaf in node order: node, centers, waters, box occupancy, shell waters,
 * shell occupancy, partition score, 0; floats as bits, a dry occupancy as 0.
 * Answers: nodes, greatest depth, reported leaves, dry leaves (those with no water in their own box).
 * Refusals: Tree's, and the leaf table counts as a third node table for 13, where it is all zero too. */
uint32_t baithrum_report(float lx, float ly, float lz, float hx, float hy, float hz, const float *solutes, size_t solutes_len,
                         const float *waters, size_t waters_len, const uint32_t *starts, size_t starts_len,
                         const uint32_t *picks, size_t picks_len, uint32_t *center_order, size_t center_order_len,
                         uint32_t *water_order, size_t water_order_len, uint32_t *records, size_t records_len,
                         float *boxes, size_t boxes_len, uint32_t *leaves, size_t leaves_len,
                         uint32_t *answers, size_t answers_len);

/* The whole frame: Select, Open, the rows in rising order, Close, Dispersion and Report, with their tables; clusters is the cluster table.
 * Answers, eleven words: blank, copies, picks, largest, contacted and pair fraction, dispersion, nodes, greatest depth, reported leaves,
 * dry leaves.
 * A frame is blank if the cell is not valid, a coordinate list is empty, no copy is kept or no water is finite, with any cutoff. It is no
 * refusal: the result is 0, the first answer is 1, the others are 0, and no other table is changed. Otherwise the first answer is 0.
 * Refusals: 1, 2, 3, 4, then blank, 5, 6, 16, 7 (starts, picks, clusters or an order list too short), 13. At 13 the pick lists and clusters
 * are filled and the rest is as Report leaves it. */
uint32_t baithrum_frame(float lx, float ly, float lz, float hx, float hy, float hz, float cutoff, const float *solutes, size_t solutes_len,
                        size_t per, const uint32_t *indices, size_t indices_len, const float *waters, size_t waters_len,
                        uint32_t *starts, size_t starts_len, uint32_t *picks, size_t picks_len,
                        uint32_t *clusters, size_t clusters_len, uint32_t *center_order, size_t center_order_len,
                        uint32_t *water_order, size_t water_order_len, uint32_t *records, size_t records_len,
                        float *boxes, size_t boxes_len, uint32_t *leaves, size_t leaves_len,
                        uint32_t *answers, size_t answers_len);

#ifdef __cplusplus
}
#endif

#endif
