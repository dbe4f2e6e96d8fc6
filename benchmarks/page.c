/* The page RESULTS.md, printed from the files of a run's passes: what is seen at a glance, what was measured, the tables.
     page SOURCE FILE..
   SOURCE says what was measured: the commit and the archives. */
#include "page.h"

#include <stdbool.h>
#include <stdio.h>
#include <string.h>

enum { SHOWN_D = 5, SHOWN_B = 4096 }; /* the measures of what is seen at a glance */

/* The ratios of this library's speed to a peer's, over all measures of a work: those of all passes, or their medians. */
static struct spread range_of(enum work work, unsigned mib, enum peer peer, bool medians)
{
    struct spread all = NO_SPREAD;
    for (const struct result *row = next_row(NULL, work, work, mib); row != NULL; row = next_row(row, work, work, mib)) {
        struct spread one = ratio_of(row, peer_of(row, peer));
        all = joined(all, medians ? middle_of(one) : one);
    }
    return all;
}

/* Prints a cell with a speed and its spread. */
static void print_speed(const struct result *r)
{
    if (r == NULL) {
        printf(" - |");
        return;
    }
    struct spread s = speed_of(r);
    printf(" %.1f (%.1f to %.1f) |", s.middle, s.low, s.high);
}

/* Prints the table that has a row for each kind of work. */
static void print_rows(void)
{
    static const struct {
        enum work work;
        unsigned mib;
    } shown[] = {{PARITY, 0},     {ALL_STRIPES, DATA_MIB}, {ONE_BLOCK, 0},
                 {TWO_BLOCKS, 0}, {WRITE, DATA_MIB},       {REBUILD_TWO, DATA_MIB}};
    printf(has_isal() ? "| GB/s | this library | ISA-L for SSE | ISA-L's choice | plain C |\n|---|---|---|---|---|\n"
                      : "| GB/s | this library | plain C |\n|---|---|---|\n");
    for (unsigned k = 0; k < sizeof shown / sizeof shown[0]; k++) {
        const struct result *row = row_of(shown[k].work, shown[k].mib, SHOWN_D, SHOWN_B);
        printf("| %s |", work_names[shown[k].work]);
        print_speed(row);
        for (enum peer p = has_isal() ? SSE_PEER : C_PEER; p < PEERS; p++)
            print_speed(peer_of(row, p));
        printf("\n");
    }
    printf("\n");
}

/* Prints the row of a work: this library's speed as a part of each peer's. */
static void print_part(enum work work, unsigned mib)
{
    printf("| %s |", work_names[work]);
    for (enum peer p = has_isal() ? SSE_PEER : C_PEER; p < PEERS; p++) {
        struct spread middle = range_of(work, mib, p, true), all = range_of(work, mib, p, false);
        printf(" %.2f to %.2f (%.2f to %.2f) |", middle.low, middle.high, all.low, all.high);
    }
    printf("\n");
}

/* Prints the table of these parts. */
static void print_parts(void)
{
    say("This library's speed as a part of the peers', over all d and B: by the median of the passes, and in brackets over all"
        " passes.");
    printf(has_isal() ? "| part | of ISA-L for SSE | of ISA-L's choice | of plain C |\n|---|---|---|---|\n"
                      : "| part | of plain C |\n|---|---|\n");
    print_part(PARITY, 0);
    print_part(ALL_STRIPES, DATA_MIB);
    print_part(ONE_BLOCK, 0);
    print_part(TWO_BLOCKS, 0);
    printf("\n");
}

/* Prints the part that is seen at a glance. */
static void print_glance(void)
{
    printf("# Speed\n\n");
    say("`benchmarks/run` writes this page and the picture, all of it from one run.");
    printf("![GB/s of this library and its peers, for parity and recovery](speed.svg)\n\n## In six rows\n\n");
    say("d %d, blocks of %d bytes; GB/s of data blocks, the median of %u passes and in brackets the lowest and the highest."
        " A stripe is in cache; an array, also that of the shelf's calls, has %d MiB of data blocks.",
        SHOWN_D, SHOWN_B, run.passes, DATA_MIB);
    if (has_isal())
        say("ISA-L is shown by its code for SSE, the width that this library is compiled for, and by the code that it chooses for the"
            " processor, the widest one, here %s.", run.vectors);
    print_rows();
    print_parts();
}

/* The processor's name, as the kernel gives it. */
static const char *processor(void)
{
    static char text[256];
    char *name = NULL;
    FILE *info = fopen("/proc/cpuinfo", "r");
    while (info != NULL && name == NULL && fgets(text, sizeof text, info) != NULL)
        if (strncmp(text, "model name", 10) == 0)
            name = strchr(text, ':');
    if (info != NULL)
        fclose(info);
    if (name == NULL)
        return "not known";
    name[strcspn(name, "\n")] = '\0';
    return name + 2;
}

/* Says how far the times of single passes are from the medians that the tables show. */
static void point_spread(void)
{
    static double parts[MOST_RESULTS * MOST_PASSES];
    unsigned n = 0;
    for (unsigned k = 0; k < run.count * run.passes; k++) {
        const struct result *r = &run.results[k / run.passes];
        if (r->variant != SAME_STRIPES)
            parts[n++] = r->times[k % run.passes] / time_of(r).middle;
    }
    sort(parts, n);
    point("Spread: the time of a single pass is %.2f to %.2f times the median that is shown; nine of ten are %.2f to %.2f"
          " times it.", parts[0], parts[n - 1], parts[n / 20], parts[n - 1 - n / 20]);
}

/* Says how ISA-L is measured, and what it is slowed by. */
static void points_of_isal(void)
{
    point("ISA-L %s: by the code that it chooses for the processor, and by that for SSE. The former leaves the upper halves of"
          " the vector registers in use, which slows all SSE code that is called next; so vzeroupper follows each call of it,"
          " within ISA-L's time. In the six rows and in the picture it is the fastest of ISA-L's functions for the work.", run.isal);
    point("Its pq_gen and xor_gen for SSE store past the cache. Where every call stores the same short blocks, it waits for the"
          " stores of the one before, so that their figures of one stripe with B 512 are below what they reach with other stripes"
          " by turns.");
    point("The blocks of a stripe stand one after another, as this library takes them, and the members of an array likewise. Where"
          " they are a multiple of a page apart (B 4096, and all arrays with d 16), they fall on the same lines of the first cache,"
          " which with d 16 cannot hold them all. That slows code that goes through all blocks side by side: much of ISA-L's is"
          " faster with d 16 where the blocks stand otherwise.");
}

/* Says who is compared with whom. */
static void points_of_variants(void)
{
    point("This library: libstripe.a, libprobe.a and libshelf.a, compiled for SSE2.");
    if (has_isal())
        points_of_isal();
    else
        point("ISA-L was not there, and is left out.");
    point("Plain C: gcc %s -O3, row by row over whole blocks. The doubling is written as this library writes it (C rows) and by"
          " shift and mask (C rows by mask), which makes no difference where one block is recovered. In the six rows and in the"
          " picture it is the faster of the two.", __VERSION__);
    point("memcpy: it copies the data blocks, and so stores d blocks where parity stores two.");
}

/* Prints what was measured and what the figures mean. */
static void print_terms(const char *source)
{
    printf("## What was measured\n\n");
    point("Source: %s.", source);
    point("Processor: %s, with vectors up to %s.", processor(), run.vectors);
    points_of_variants();
    point("Seed %u. Before the timing of each pass every result is compared byte for byte with that of %s, and after it once"
          " more what calls leave that are made as they were timed.", SEED, has_isal() ? "ISA-L" : "plain C");
    point("Passes: %u, each a process of its own, of %u to %u rounds. A round gives each case a slice of a millisecond. The time of a"
          " pass is the one that a tenth of its rounds stay below, since other load on the processor only adds to it. The tables"
          " show the median of the passes.", run.passes, run.least_rounds, run.most_rounds);
    point_spread();
    point("GB/s: 10^9 bytes of data blocks (d x B a stripe, in recovery too) in a second.");
    printf("\n");
}

/* Reads the passes and prints the page. */
int main(int argc, char **argv)
{
    if (argc < 3) {
        fprintf(stderr, "usage: page SOURCE FILE..\n");
        return 2;
    }
    read_passes(argc - 2, argv + 2);
    print_glance();
    print_terms(argv[1]);
    print_ratios();
    print_stripes();
    print_shelf();
    print_lists();
    print_stale();
    print_tests();
    print_layouts();
    print_single();
    return 0;
}
