/* The tables of the shelf's other shapes: the rotating layout beside the fixed one, and one parity beside two. */
#include "page.h"

#include <stdio.h>

/* The least and the greatest of the medians by which one variant is faster than another, over the rows of some works. */
static struct spread medians(enum work from, enum work to, unsigned mib, enum variant v, enum variant other)
{
    struct spread all = NO_SPREAD;
    for (const struct result *row = next_row(NULL, from, to, mib); row != NULL; row = next_row(row, from, to, mib)) {
        const struct result *r = beside(row, v), *by = beside(row, other);
        if (r != NULL && by != NULL)
            all = joined(all, middle_of(ratio_of(r, by)));
    }
    return all;
}

/* Prints a row of the table of the layouts: the times, their ratio, and for a rebuild the time of the
   same stripes in the fixed layout. */
static void print_layouts_row(const struct result *row)
{
    const struct result *turned = beside(row, ROTATING), *same = beside(row, SAME_STRIPES);
    const struct result *c = beside(row, C_FIXED), *c_turned = beside(row, C_ROTATING);
    printf("| %s | %u | %u | %u | %.1f | %.1f | %.2f |", work_names[row->work], mib_of(row), row->d, row->b,
           time_of(row).middle / 1e3, time_of(turned).middle / 1e3, ratio_of(turned, row).middle);
    if (same != NULL)
        printf(" %.1f | %.2f |", time_of(same).middle / 1e3, ratio_of(turned, same).middle);
    else
        printf(" - | - |");
    if (c_turned != NULL)
        printf(" %.2f |\n", ratio_of(c_turned, c).middle);
    else
        printf(" - |\n");
}

/* Prints the rows of some works that are timed in both layouts. */
static void print_layouts_rows(enum work from, enum work to, unsigned mib)
{
    for (const struct result *row = next_row(NULL, from, to, mib); row != NULL; row = next_row(row, from, to, mib))
        if (beside(row, ROTATING) != NULL)
            print_layouts_row(row);
}

/* Says by what the layouts differ. */
static void say_layouts(void)
{
    struct spread one = medians(REBUILD_ONE, REBUILD_ONE, DATA_MIB, ROTATING, OURS);
    struct spread c_one = medians(REBUILD_ONE, REBUILD_ONE, DATA_MIB, C_ROTATING, C_FIXED);
    struct spread read = medians(READ, FETCH, DATA_MIB, ROTATING, OURS);
    struct spread c_read = medians(READ, FETCH, DATA_MIB, C_ROTATING, C_FIXED);
    struct spread small_one = medians(REBUILD_ONE, REBUILD_ONE, SMALL_MIB, ROTATING, OURS);
    struct spread small_read = medians(READ, FETCH, SMALL_MIB, ROTATING, OURS);
    struct spread two = medians(REBUILD_TWO, REBUILD_TWO, DATA_MIB, ROTATING, OURS);
    struct spread made = joined(medians(WRITE, WRITE, DATA_MIB, ROTATING, OURS),
                                medians(FULL_RESYNC, FULL_RESYNC, DATA_MIB, ROTATING, OURS));
    struct spread listed = medians(LOG_AGAIN, RESYNC, DATA_MIB, ROTATING, OURS);
    say("The rotating layout has these parts of the fixed one's speed. A write of all blocks and full resync over %d MiB: %.2f to"
        " %.2f; the calls with blocks listed: %.2f to %.2f. A rebuild of one member: %.2f to %.2f in cache, and over %d MiB %.2f to"
        " %.2f, where plain C has %.2f to %.2f: a stripe's Q is not read, so that each member is read with gaps, which the"
        " processor's prefetching does not bridge. A read of all blocks: %.2f to %.2f in cache, and over %d MiB %.2f to %.2f, where"
        " plain C has %.2f to %.2f: it passes over P and Q. A rebuild of two members over %d MiB: %.2f to %.2f; it fills its table of"
        " products anew where the pair of lost data indices changes.",
        DATA_MIB, made.low, made.high, listed.low, listed.high, small_one.low, small_one.high, DATA_MIB, one.low, one.high,
        c_one.low, c_one.high, small_read.low, small_read.high, DATA_MIB, read.low, read.high, c_read.low, c_read.high, DATA_MIB,
        two.low, two.high);
}

/* Prints the table of the layouts. */
void print_layouts(void)
{
    static const enum work works[] = {FULL_RESYNC, WRITE, READ, FETCH, REBUILD_ONE, REBUILD_TWO};
    printf("## The rotating layout beside the fixed one\n\n");
    say("What a call takes in either, in µs, and the time in the fixed layout by that in the rotating one. Both work on the same"
        " bytes, put in the layout before a slice, which does not count. The array has %d MiB of data blocks, or %d MiB, which stay"
        " in cache. Member 2 is rebuilt, or two members: 1 and 3 (d 5), 3 and 11 (d 16). In the fixed layout they are data disks; in"
        " the rotating one a member has a data block in d of d + 2 stripes and P or Q in two, where both are made. So a rebuild is"
        " also held to the same stripes in the fixed layout: to the sum of what a stripe takes there that has lost the same, by"
        " rebuilds of data disks, of P and Q, and of a data disk and one of these. The last column is the ratio that plain C gets for"
        " the same work in both layouts. The calls with blocks listed are those of the table above.", DATA_MIB, SMALL_MIB);
    say_layouts();
    printf("| work | MiB | d | B | fixed, µs | rotating, µs | fixed / rotating | the same stripes fixed, µs | that / rotating |"
           " C: fixed / rotating |\n|---|---|---|---|---|---|---|---|---|---|\n");
    for (unsigned k = 0; k < sizeof works / sizeof works[0]; k++) {
        print_layouts_rows(works[k], works[k], DATA_MIB);
        print_layouts_rows(works[k], works[k], SMALL_MIB);
    }
    print_layouts_rows(LOG_AGAIN, RESYNC, DATA_MIB);
    printf("\n");
}

/* Prints the rows of a work of a shelf with one parity. */
static void print_single_rows(enum work work, unsigned mib)
{
    for (const struct result *row = next_row(NULL, work, work, mib); row != NULL; row = next_row(row, work, work, mib)) {
        const struct result *single = beside(row, SINGLE);
        printf("| %s | %u | %u | %u | %.1f | %.1f | %.2f |\n", work_names[row->work], mib, row->d, row->b,
               speed_of(single).middle, speed_of(row).middle, ratio_of(single, row).middle);
    }
}

/* Prints the table of a shelf with one parity beside one with two. */
void print_single(void)
{
    static const enum work works[] = {FULL_RESYNC, WRITE, REBUILD_ONE};
    printf("## One parity beside two\n\n");
    say("A shelf with one parity beside one with two, fixed layout, nothing listed, in GB/s of data blocks. Both work on the same"
        " bytes: the array with one parity is that with two without its last member, Q. Data disk 2 is rebuilt, from P in either."
        " P of a single stripe is in the table of stripes.");
    printf("| work | MiB | d | B | one parity | two parities | one / two |\n|---|---|---|---|---|---|---|\n");
    for (unsigned k = 0; k < sizeof works / sizeof works[0]; k++) {
        print_single_rows(works[k], DATA_MIB);
        print_single_rows(works[k], SMALL_MIB);
    }
}
