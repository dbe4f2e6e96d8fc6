/* The results of a run: read from the files of its passes, found by what they are of, and made into figures. */
#include "results.h"

#include <stdio.h>
#include <stdlib.h>

struct run run;

/* Ends the program with an error about a pass's file. */
static void refuse(const char *path, const char *what)
{
    fprintf(stderr, "benchmark: %s: %s\n", path, what);
    exit(1);
}

/* Whether two results are of the same work with the same measures. */
static bool same_work(const struct result *a, const struct result *b)
{
    return a->work == b->work && a->d == b->d && a->b == b->b && a->s == b->s && a->h == b->h && a->listed == b->listed;
}

/* Takes the first line of a pass's file. */
static void read_terms(FILE *file, const char *path)
{
    unsigned rounds;
    if (fscanf(file, "rounds %u damaged %u isal %31s vectors %31s", &rounds, &run.damaged_lists, run.isal, run.vectors) != 4)
        refuse(path, "its first line is another");
    if (run.passes == 0 || rounds < run.least_rounds)
        run.least_rounds = rounds;
    if (run.passes == 0 || rounds > run.most_rounds)
        run.most_rounds = rounds;
}

/* Takes a pass's file: the times of the cases that the first pass has, in the same order. */
static void read_pass(const char *path)
{
    FILE *file = fopen(path, "r");
    if (file == NULL)
        refuse(path, "it cannot be read");
    read_terms(file, path);
    struct result r = {0};
    unsigned count = 0;
    double ns;
    while (fscanf(file, "%u %u %u %u %u %u %u %lf", &r.work, &r.variant, &r.d, &r.b, &r.s, &r.h, &r.listed, &ns) == 8) {
        struct result *to = &run.results[count];
        if (count == MOST_RESULTS || r.work >= WORKS || r.variant >= VARIANTS)
            refuse(path, "a result is not known");
        if (run.passes == 0)
            *to = r;
        if (to->variant != r.variant || !same_work(to, &r))
            refuse(path, "its results are of other works than those of the first pass");
        to->times[run.passes] = ns;
        count++;
    }
    if (!feof(file) || count == 0 || (run.passes > 0 && count != run.count))
        refuse(path, "it is not whole");
    fclose(file);
    run.count = count;
}

/* Takes the files of all passes. */
void read_passes(int count, char *const *files)
{
    if (count < 1 || count > MOST_PASSES) {
        fprintf(stderr, "benchmark: from one to %d passes are reported\n", MOST_PASSES);
        exit(1);
    }
    for (; run.passes < (unsigned)count; run.passes++)
        read_pass(files[run.passes]);
}

/* Whether ISA-L was measured. */
bool has_isal(void)
{
    return run.isal[0] != '-';
}

/* The MiB of data blocks that a work goes over. */
unsigned mib_of(const struct result *r)
{
    return (unsigned)((size_t)r->d * r->b * r->s >> 20);
}

/* The row after one, or the first after null. */
const struct result *next_row(const struct result *after, enum work from, enum work to, unsigned mib)
{
    for (const struct result *r = after == NULL ? run.results : after + 1; r < run.results + run.count; r++)
        if (r->variant == OURS && r->work >= from && r->work <= to && mib_of(r) == mib)
            return r;
    return NULL;
}

/* The row of a work with given measures. */
const struct result *row_of(enum work work, unsigned mib, uint32_t d, uint32_t b)
{
    const struct result *row = next_row(NULL, work, work, mib);
    while (row != NULL && (row->d != d || row->b != b))
        row = next_row(row, work, work, mib);
    return row;
}

/* The result of another for a row's work. */
const struct result *beside(const struct result *row, enum variant v)
{
    for (const struct result *r = run.results; row != NULL && r < run.results + run.count; r++)
        if (r->variant == v && same_work(r, row))
            return r;
    return NULL;
}

/* The spread of the passes' figures, which it puts in order. */
static struct spread spread_of(double figures[MOST_PASSES])
{
    unsigned n = run.passes;
    sort(figures, n);
    return (struct spread){figures[0], (figures[(n - 1) / 2] + figures[n / 2]) / 2, figures[n - 1]};
}

/* What a call takes, in nanoseconds. */
struct spread time_of(const struct result *r)
{
    double figures[MOST_PASSES];
    for (unsigned n = 0; n < run.passes; n++)
        figures[n] = r->times[n];
    return spread_of(figures);
}

/* GB/s: the data blocks of a call by its time. */
struct spread speed_of(const struct result *r)
{
    double figures[MOST_PASSES];
    for (unsigned n = 0; n < run.passes; n++)
        figures[n] = (double)r->d * r->b * r->s / r->times[n];
    return spread_of(figures);
}

/* The speed of one as a multiple of another's. */
struct spread ratio_of(const struct result *r, const struct result *other)
{
    double figures[MOST_PASSES];
    for (unsigned n = 0; n < run.passes; n++)
        figures[n] = other->times[n] / r->times[n];
    return spread_of(figures);
}

/* The median alone, as a spread. */
struct spread middle_of(struct spread s)
{
    return (struct spread){s.middle, s.middle, s.middle};
}

/* The least spread that has two within it; its median means nothing. */
struct spread joined(struct spread a, struct spread b)
{
    return (struct spread){a.low < b.low ? a.low : b.low, 0, a.high > b.high ? a.high : b.high};
}

/* The faster of two results, either of which may be missing. */
static const struct result *faster(const struct result *a, const struct result *b)
{
    if (a == NULL || b == NULL)
        return a == NULL ? b : a;
    return time_of(b).middle < time_of(a).middle ? b : a;
}

/* A peer's result for a row's work; null where it has none. */
const struct result *peer_of(const struct result *row, enum peer peer)
{
    static const enum variant functions[PEERS][3] = {
        [SSE_PEER] = {SSE_SUMS, SSE_PRODUCTS, SSE_PRODUCTS},
        [CHOICE_PEER] = {ISAL_SUMS, ISAL_PRODUCTS, ISAL_PRODUCTS},
        [C_PEER] = {C_ROWS, MASK_ROWS, C_FIXED},
    };
    const struct result *best = NULL;
    for (unsigned k = 0; k < 3; k++)
        best = faster(best, beside(row, functions[peer][k]));
    return best;
}
