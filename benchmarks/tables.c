/* The tables of a stripe and of the shelf in the fixed layout with nothing listed, each with what explains it. */
#include "page.h"

#include <stdio.h>

/* Prints a cell with a variant's speed. */
static void print_speed(const struct result *row, enum variant v)
{
    const struct result *r = beside(row, v);
    if (r == NULL)
        printf(" - |");
    else
        printf(" %.1f |", speed_of(r).middle);
}

/* Prints a cell with a variant's speed, and one with this library's as a multiple of it. */
static void print_ratio(const struct result *row, enum variant v)
{
    struct spread ratio = ratio_of(row, beside(row, v));
    print_speed(row, v);
    printf(" %.2f (%.2f to %.2f) |", ratio.middle, ratio.low, ratio.high);
}

/* Prints the rows of a work beside ISA-L's, with the ratios of the passes. */
static void print_ratio_rows(enum work work, unsigned mib)
{
    for (const struct result *row = next_row(NULL, work, work, mib); row != NULL; row = next_row(row, work, work, mib)) {
        printf("| %s | %u | %u |", work_names[work], row->d, row->b);
        print_speed(row, OURS);
        print_ratio(row, ISAL_SUMS);
        print_ratio(row, SSE_SUMS);
        printf("\n");
    }
}

/* Prints the table of parity beside ISA-L's, where that was measured. */
void print_ratios(void)
{
    if (!has_isal())
        return;
    printf("## Parity beside ISA-L's\n\n");
    say("Speeds in GB/s, and this library's as a multiple of ISA-L's in the same pass: the median, and in brackets the lowest and"
        " the highest of the passes.");
    printf("| work | d | B | this library | pq_gen | ratio | pq_gen for SSE | ratio |\n|---|---|---|---|---|---|---|---|\n");
    print_ratio_rows(PARITY, 0);
    print_ratio_rows(ALL_STRIPES, DATA_MIB);
    printf("\n");
}

/* Whether a variant is timed for one of some works. */
static bool has_column(enum variant v, enum work from, enum work to, unsigned mib)
{
    for (const struct result *row = next_row(NULL, from, to, mib); row != NULL; row = next_row(row, from, to, mib))
        if (beside(row, v) != NULL)
            return true;
    return false;
}

/* Prints the head of a table of speeds. Answers the variants that have a column. */
static unsigned print_head(enum work from, enum work to, unsigned mib, enum variant columns[C_FIXED + 1])
{
    unsigned n = 0;
    printf("| GB/s | d | B |");
    for (enum variant v = OURS; v <= C_FIXED; v++)
        if (v != SINGLE && has_column(v, from, to, mib)) {
            printf(" %s |", variant_names[v]);
            columns[n++] = v;
        }
    printf("\n|---|---|---|");
    for (unsigned k = 0; k < n; k++)
        printf("---|");
    printf("\n");
    return n;
}

/* Prints the rows of a table of speeds: some works, and the variants that have a column. */
static void print_speeds(enum work from, enum work to, unsigned mib, unsigned n, const enum variant *columns)
{
    for (const struct result *row = next_row(NULL, from, to, mib); row != NULL; row = next_row(row, from, to, mib)) {
        printf("| %s | %u | %u |", work_names[row->work], row->d, row->b);
        for (unsigned k = 0; k < n; k++)
            print_speed(row, columns[k]);
        printf("\n");
    }
}

/* Prints the table of a stripe's works. */
void print_stripes(void)
{
    enum variant columns[C_FIXED + 1];
    printf("## A stripe and an array\n\n");
    say("One stripe is in cache, the same for all variants; in recovery the missing blocks are not cleared between calls. The array"
        " has %d MiB of data blocks, kept by member, the same for all variants; P and Q of all stripes are made in place.", DATA_MIB);
    unsigned n = print_head(PARITY, TWO_BLOCKS, 0, columns);
    print_speeds(PARITY, TWO_BLOCKS, 0, n, columns);
    print_speeds(P_ALONE, P_ALONE, 0, n, columns);
    print_speeds(ALL_STRIPES, ALL_STRIPES, DATA_MIB, n, columns);
    printf("\n");
}

/* The microseconds of one call of a fetch of lost blocks, d 5. */
static double fetch_time(uint32_t b)
{
    const struct result *row = row_of(FETCH_ONE, DATA_MIB, 5, b);
    return time_of(row).middle / row->s / 1e3;
}

/* Prints the table of the shelf's works over its whole array. */
void print_shelf(void)
{
    enum variant columns[C_FIXED + 1];
    const struct result *logged = next_row(NULL, LOG_AGAIN, LOG_AGAIN, DATA_MIB);
    printf("## The shelf's calls\n\n");
    say("Over an array of %d MiB of data blocks, fixed layout, nothing listed. The peers do the same work on the same array, stripe by"
        " stripe: for a write, memcpy of each block and then parity; for a read, plain (`shelf_read`) or recovering (`shelf_fetch`),"
        " memcpy by block; for the rest, what is named. Plain C is memcpy and the C rows by mask. A fetch of lost blocks is a call"
        " for each block of one disk.", DATA_MIB);
    unsigned n = print_head(SHELF_WORKS, FULL_RESYNC, DATA_MIB, columns);
    print_speeds(SHELF_WORKS, FULL_RESYNC, DATA_MIB, n, columns);
    printf("\n");
    say("Every call but format and full resync tests the whole list, and looks at all of its places: %.1f µs for %d places of which"
        " %u are used. The fetches of lost blocks, a call a block, pay for it: with d 5 such a call takes %.1f µs in all for 512 bytes"
        " and %.1f µs for 4096, while the peers test nothing.",
        time_of(beside(logged, LIST_TEST)).middle / 1e3, PLACES, logged->listed, fetch_time(512), fetch_time(4096));
    say("On a sound array both reads go through the same function, which the compiler lays out in each of them by itself.");
}
