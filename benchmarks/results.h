/* What a run of the benchmark tells: the works and variants that are timed, and the times of its passes. The measuring program
   writes a file for each pass; those that make the page and the picture read them. */
#ifndef RESULTS_H
#define RESULTS_H

#include <stdbool.h>
#include <stddef.h>
#include <stdint.h>

#define SEED 285u

/* MiB of data blocks in an array, rounded up to a whole stripe, and in one that stays in cache; the list's slots and places. */
enum { DATA_MIB = 16, SMALL_MIB = 1, SLOTS = 256, PLACES = 4096 };

/* A stripe's works, those of a shelf over its whole array, two rebuilds that only the comparison of the
   layouts needs, those that change a list, those that recover from stale stripes, the test of the list alone, and
   parity of a stripe without Q. */
enum work {
    PARITY, ONE_BLOCK, TWO_BLOCKS, ALL_STRIPES,
    WRITE, READ, FETCH, FETCH_ONE, FETCH_TWO, REBUILD_ONE, REBUILD_TWO, REBUILD_PARITY, FULL_RESYNC,
    REBUILD_WITH_P, REBUILD_WITH_Q,
    LOG_AGAIN, LOG_FIRST, LOG_MIDDLE, LOG_LAST, RESYNC, DROP,
    STALE_REBUILD, STALE_FETCH, STALE_BLOCK,
    TEST,
    P_ALONE,
    WORKS,
    SHELF_WORKS = WRITE, LIST_WORKS = LOG_AGAIN, STALE_WORKS = STALE_REBUILD /* the first of a kind */
};

/* Who does a work: this library; ISA-L's pq_gen and xor_gen, by the code that it chooses and by that for SSE;
   its ec_encode_data in the same two ways; the C rows with the doubling in two spellings; memcpy; this library
   without Q; C in the fixed layout, this library and C in the rotating one; the C test of the list, and a call
   that only tests the list. SAME_STRIPES is not timed: it is a rebuild in the rotating layout by the times that
   its stripes take in the fixed one. */
enum variant {
    OURS, ISAL_SUMS, SSE_SUMS, ISAL_PRODUCTS, SSE_PRODUCTS, C_ROWS, MASK_ROWS, MEMCPY,
    SINGLE, C_FIXED, ROTATING, C_ROTATING, C_LIST_TEST, LIST_TEST, SAME_STRIPES,
    VARIANTS
};

/* Their names (names.c). */
extern const char *const work_names[WORKS], *const variant_names[VARIANTS];

/* Numbers put in rising order (order.c). */
void sort(double *numbers, size_t count);

/* What a call takes in each pass, in nanoseconds. */
enum { MOST_PASSES = 16, MOST_RESULTS = 2048 };
struct result {
    unsigned work, variant;
    uint32_t d, b, s;   /* data blocks in a stripe, bytes in a block, stripes */
    uint32_t h, listed; /* slots, 0 where there is no list; blocks listed */
    double times[MOST_PASSES];
};

/* All results of a run (results.c). ISA-L's version is "-" where it was not there; vectors names the widest that the processor has. */
struct run {
    struct result results[MOST_RESULTS];
    unsigned count, passes;
    unsigned least_rounds, most_rounds, damaged_lists;
    char isal[32], vectors[32];
};
extern struct run run;
void read_passes(int count, char *const *files);
bool has_isal(void);

/* Results of this library are the rows of tables: those of some works over an array of so many MiB, 0 for a stripe, one after
   another, and the one of given measures; null where there is none. beside: the same work by another. */
const struct result *next_row(const struct result *after, enum work from, enum work to, unsigned mib);
const struct result *row_of(enum work work, unsigned mib, uint32_t d, uint32_t b);
const struct result *beside(const struct result *row, enum variant v);
unsigned mib_of(const struct result *r);

/* A figure of each pass: the lowest, the median, the highest. */
struct spread {
    double low, middle, high;
};
struct spread time_of(const struct result *r);
struct spread speed_of(const struct result *r);
struct spread ratio_of(const struct result *r, const struct result *other);
struct spread middle_of(struct spread s);
struct spread joined(struct spread a, struct spread b);
#define NO_SPREAD ((struct spread){1e300, 0, 0}) /* joined with another, that one */

/* The peers that are shown at a glance, each by the fastest of its functions for the work. */
enum peer { SSE_PEER, CHOICE_PEER, C_PEER, PEERS };
const struct result *peer_of(const struct result *row, enum peer peer);

#endif
