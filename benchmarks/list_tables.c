/* The tables of a shelf with blocks listed: of calls that change the list, of recovery from stale stripes and of the
   test of the list, each with what explains it. */
#include "page.h"

#include <stdio.h>

/* What a row's time is shown as a multiple of: this library's with nothing listed, or with the most slots; that of a
   call that only tests the list; plain C's. */
enum unit { NONE_LISTED, MOST_SLOTS, ONLY_TEST, PLAIN_C };

/* The row of the same work and measures with so many slots and blocks listed. */
static const struct result *with_list(const struct result *row, uint32_t h, uint32_t listed)
{
    const struct result *r = NULL;
    while ((r = next_row(r, row->work, row->work, mib_of(row))) != NULL)
        if (r->d == row->d && r->b == row->b && r->h == h && r->listed == listed)
            break;
    return r;
}

/* The result whose time is a row's unit. */
static const struct result *unit_of(const struct result *row, enum unit unit)
{
    if (unit == NONE_LISTED)
        return with_list(row, row->h, 0);
    if (unit == MOST_SLOTS)
        return with_list(row, SLOTS, row->listed);
    return beside(row, unit == ONLY_TEST ? LIST_TEST : row->work == TEST ? C_LIST_TEST : C_FIXED);
}

/* The least and the greatest of the medians by which rows of some works, with at least so many blocks listed, take
   longer than their unit; a row that is its own counts nothing. */
static struct spread longer(enum work from, enum work to, uint32_t least, enum unit unit)
{
    struct spread all = NO_SPREAD;
    const struct result *row = NULL;
    while ((row = next_row(row, from, to, DATA_MIB)) != NULL) {
        const struct result *other = unit_of(row, unit);
        if (row->listed >= least && row != other)
            all = joined(all, middle_of(ratio_of(other, row)));
    }
    return all;
}

/* Prints the head of a table with blocks listed: the numbers listed in the first row. */
static void print_head(enum work work, unsigned mib, const char *by)
{
    unsigned columns = 3;
    int64_t last = -1;
    printf("| µs | d | %s |", by);
    for (const struct result *row = next_row(NULL, work, work, mib); row->listed > last; row = next_row(row, work, work, mib)) {
        last = row->listed;
        columns++;
        printf(" %u listed |", row->listed);
    }
    printf("\n|");
    while (columns-- > 0)
        printf("---|");
}

/* Prints a table of works with blocks listed, a row for each d and each B or H, a column for each number of blocks:
   the time, and how many times its unit that is. */
static void print_listed(enum work from, enum work to, unsigned mib, const char *by, enum unit unit)
{
    uint32_t last = UINT32_MAX;
    print_head(from, mib, by);
    for (const struct result *row = next_row(NULL, from, to, mib); row != NULL; row = next_row(row, from, to, mib)) {
        if (row->listed <= last)
            printf("\n| %s | %u | %u |", work_names[row->work], row->d, *by == 'B' ? row->b : row->h);
        last = row->listed;
        printf(" %.1f (%.2f) |", time_of(row).middle / 1e3, ratio_of(unit_of(row, unit), row).middle);
    }
    printf("\n\n");
}

/* The least and the greatest µs of plain C's logged write of a listed block, all places used. */
static struct spread peer_times(void)
{
    struct spread all = NO_SPREAD;
    const struct result *row = NULL;
    while ((row = next_row(row, LOG_AGAIN, LOG_AGAIN, DATA_MIB)) != NULL)
        if (row->listed == PLACES)
            all = joined(all, middle_of(time_of(beside(row, C_FIXED))));
    return (struct spread){all.low / 1e3, 0, all.high / 1e3};
}

/* Prints the table of the calls that change the list. */
void print_lists(void)
{
    struct spread again = longer(LOG_AGAIN, LOG_AGAIN, PLACES, ONLY_TEST);
    struct spread anew = longer(LOG_FIRST, LOG_LAST, PLACES, ONLY_TEST), dropped = longer(RESYNC, DROP, PLACES, ONLY_TEST);
    struct spread c = peer_times(), by_c = longer(LOG_AGAIN, LOG_AGAIN, PLACES, PLAIN_C);
    printf("## Calls with blocks listed\n\n");
    say("A call in mode 1, in µs; in brackets, how many times as long it takes as a call that only tests the list (`shelf_start`,"
        " refused with 7), in the same state. The list has %d slots and %d places; it is set back before each call, which does not"
        " count. A write is of one block, which is logged; if the block is not listed before it, it is the last of those counted, and"
        " its place in the list is the first, that in the middle or the last. Where the log is full, the write makes the parity of the"
        " block's stripe, which is in the middle of the list, and drops its entries; resync does so with the first stripe.",
        SLOTS, PLACES);
    say("With all places used a write of a listed block takes %.2f to %.2f times as long as the test, one that lists a block %.2f to"
        " %.2f times, and a call that drops a stripe's entries %.2f to %.2f times. Plain C, which tests the list, finds the block by its"
        " chain and copies it to the log and to its disk, takes %.1f to %.1f µs for the first of these; this library takes %.2f to"
        " %.2f times as long.",
        again.low, again.high, anew.low, anew.high, dropped.low, dropped.high, c.low, c.high, by_c.low, by_c.high);
    print_listed(LOG_AGAIN, DROP, DATA_MIB, "B", ONLY_TEST);
}

/* The µs of a call that only tests the list in a row's state. */
static double test_time(const struct result *row)
{
    return time_of(beside(row, LIST_TEST)).middle / 1e3;
}

/* Prints the table of recovery from stale stripes. */
void print_stale(void)
{
    const struct result *none = next_row(NULL, STALE_BLOCK, STALE_BLOCK, DATA_MIB), *most = none;
    for (const struct result *r = none; r != NULL; r = next_row(r, STALE_BLOCK, STALE_BLOCK, DATA_MIB))
        most = r->listed > most->listed ? r : most;
    struct spread slots = longer(STALE_REBUILD, STALE_FETCH, 0, MOST_SLOTS);
    struct spread listed = longer(STALE_REBUILD, STALE_FETCH, most->listed, NONE_LISTED);
    printf("## Recovery with blocks listed\n\n");
    say("Two data disks of %u are out; blocks of %u bytes, %u stripes, fixed layout, a list of H slots and %d places. A call in µs; in"
        " brackets, how many times as long it takes as with nothing listed and the same H. The blocks were listed before the disks"
        " failed, by logged writes of other bytes, one in a stripe and about as many on each disk, so that each has Ori and Cur. Before"
        " the timing all that is rebuilt or fetched is compared with what was there before the disks failed.",
        none->d, none->b, none->s, PLACES);
    say("With fewer slots than %d a rebuild, or a fetch of all blocks by one call, takes %.2f to %.2f times as long as with %d, over all"
        " numbers listed. With %u listed it takes %.2f to %.2f times as long as with none, over all H.",
        SLOTS, slots.low, slots.high, SLOTS, most->listed, listed.low, listed.high);
    say("The lost block that is fetched by itself is not listed, while another of its stripe is. Each call tests the list, which for"
        " H %u takes %.1f µs with nothing listed and %.1f µs with %u.", most->h, test_time(none), test_time(most), most->listed);
    print_listed(STALE_REBUILD, STALE_BLOCK, DATA_MIB, "H", NONE_LISTED);
}

/* Prints the table of the test of the list. */
void print_tests(void)
{
    printf("## The test of the list\n\n");
    say("The test alone (`shelf_start` in mode 1, refused with 7), in µs; in brackets, how many times as long it takes as a test of"
        " the same rules in plain C (gcc %s -O3), a walk over the chains with a bitmap. The list, of H slots and %d places, is in"
        " cache. About half of the blocks listed are in stripes listed whole by a reconstruction-write, where the d / 2 + 1 blocks"
        " written lack Ori; the others have Ori and Cur. Before the timing both let every list pass, and refuse %u damaged ones.",
        __VERSION__, PLACES, run.damaged_lists);
    print_listed(TEST, TEST, 0, "H", PLAIN_C);
}
