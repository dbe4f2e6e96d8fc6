/* What is worked on: the lines' jobs with their bytes, but for those with blocks listed, and the test that each
   variant makes of them what it must. */
#include "bench.h"

#include <stdio.h>
#include <stdlib.h>
#include <string.h>

#define PAGE ((size_t)4096)

static const uint32_t measures[MEASURES][2] = {{5, 512}, {5, 4096}, {16, 512}, {16, 4096}};
static const uint32_t p_measures[P_MEASURES][2] = {{3, 512}, {3, 4096}, {5, 512}, {5, 4096}, {16, 512}, {16, 4096}};

/* The works that the layouts are compared in, and at last those that are only there in the fixed one. */
const enum work laid_works[LAID_WORKS] = {FULL_RESYNC, WRITE, READ, FETCH, REBUILD_ONE, REBUILD_TWO,
                                          REBUILD_PARITY, REBUILD_WITH_P, REBUILD_WITH_Q};

struct line lines[LINES];

/* Bytes at the start of a page, all written once. */
uint8_t *pages(size_t len)
{
    len = (len + PAGE - 1) / PAGE * PAGE;
    uint8_t *bytes = aligned_alloc(PAGE, len);
    if (bytes == NULL) {
        fprintf(stderr, "benchmark: no memory\n");
        exit(1);
    }
    return memset(bytes, 1, len);
}

/* Whether a work recovers from stale stripes, with two data disks failed. */
static bool from_stale(enum work work)
{
    return work >= STALE_WORKS && work < TEST;
}

/* The members that a job's work makes or finds failed: one data disk, two, one and P or Q, or P and Q. */
void name_members(struct job *job)
{
    enum work w = job->work;
    job->x = job->d;
    job->y = job->d + 1;
    if (w == ONE_BLOCK || w == FETCH_ONE || w == REBUILD_ONE)
        job->x = job->y = 2;
    if (w == REBUILD_WITH_P || w == REBUILD_WITH_Q) {
        job->x = 2;
        job->y = w == REBUILD_WITH_P ? job->d : job->d + 1;
    }
    if (w == TWO_BLOCKS || w == FETCH_TWO || w == REBUILD_TWO || from_stale(w)) {
        job->x = job->d == 5 ? 1 : 3;
        job->y = job->d == 5 ? 3 : 11;
    }
}

/* Fills a line's job with random data, with P and Q by the reference, and keeps a copy. */
static void fill(struct line *line)
{
    struct job making = line->job;
    making.work = making.s == 1 ? PARITY : ALL_STRIPES;
    name_members(&making);
    for (size_t k = 0; k < making.len; k += sizeof(uint64_t)) {
        uint64_t word = next_random();
        memcpy(making.bytes + k, &word, sizeof word);
    }
    turn_to(&making);
    run_batch(REFERENCE, &making, 1);
    line->job.sound[SHELF_FIXED] = memcpy(pages(making.len), making.bytes, making.len);
}

/* A line for one stripe, or for an array, of random bytes with their P and Q. */
static struct line random_line(enum work work, const uint32_t m[2], uint32_t s, uint8_t *copy)
{
    struct line line = {.job = {.work = work, .d = m[0], .b = m[1], .s = s, .parities = 2, .copy = copy}};
    line.job.len = (size_t)(line.job.d + 2) * s * line.job.b;
    line.job.bytes = pages(line.job.len);
    name_members(&line.job);
    fill(&line);
    return line;
}

/* Lends a job's array a log and a list of so many slots, and makes a fresh shelf of them. */
void lend(struct job *job, uint32_t h)
{
    job->h = h;
    job->log = pages((size_t)LOG_RECORDS * job->b);
    job->list = pages(list_len(job));
    format(job);
}

/* Adds the rotating layout to a job: a fresh shelf of it gets all blocks by a write of this library's, and
   must then be the array that C makes of the fixed one. */
static void add_rotating(struct job *job)
{
    job->laid = (size_t *)pages(sizeof *job->laid);
    job->sound[SHELF_ROTATING] = pages(job->len);
    turn_array(job);
    struct job turned = in_layout(job, SHELF_ROTATING);
    format(&turned);
    ours_write(&turned);
    *job->laid = SHELF_ROTATING;
    compare(&turned, "the first write in the rotating layout");
    lay_out(job);
}

/* A line for a shelf: an array of so many bytes of data, what it is lent beside it, and the data in the
   order of addresses. */
static struct line shelf_line(unsigned m, size_t bytes, uint8_t *copy)
{
    size_t stripe = (size_t)measures[m][0] * measures[m][1];
    struct line line = random_line(ALL_STRIPES, measures[m], (uint32_t)((bytes + stripe - 1) / stripe), copy);
    struct job *job = &line.job;
    lend(job, SLOTS);
    memcpy(job->bytes, job->sound[SHELF_FIXED], job->len);
    copy_blocks(job);
    job->data = memcpy(pages(stripe * job->s), copy, stripe * job->s);
    add_rotating(job);
    line.rotating = true;
    return line;
}

/* Whether a work is a rebuild. */
static bool rebuilds(enum work work)
{
    return (work >= REBUILD_ONE && work <= REBUILD_PARITY) || work == REBUILD_WITH_P || work == REBUILD_WITH_Q ||
           work == STALE_REBUILD;
}

/* The same shelf for another work, with the members failed that it names. */
struct line with_work(const struct line *shelf, enum work work)
{
    struct line line = *shelf;
    struct job *job = &line.job;
    job->work = work;
    name_members(job);
    if (work == FETCH_ONE || work == FETCH_TWO || rebuilds(work) || from_stale(work))
        job->record.failed[job->x] = job->record.failed[job->y] = true;
    return line;
}

/* Makes the lines of a small array for a pair of measures. */
static void small_lines(unsigned m, uint8_t *copy)
{
    struct line shelf = shelf_line(m, SMALL_BYTES, copy);
    shelf.alone = true;
    for (unsigned k = 0; k < LAID_WORKS; k++)
        lines[SMALL_LINES + k * MEASURES + m] = with_work(&shelf, laid_works[k]);
}

/* A line for a stripe without Q. */
static struct line p_line(const uint32_t m[2], uint8_t *copy)
{
    struct line line = random_line(P_ALONE, m, 1, copy);
    line.job = without_q(&line.job);
    return line;
}

/* Makes all lines. Those of an array share one for each pair of measures. */
void make_lines(void)
{
    uint8_t *copy = pages(DATA_BYTES + MOST_DATA * PAGE);
    for (unsigned m = 0; m < MEASURES; m++) {
        struct line shelf = shelf_line(m, DATA_BYTES, copy);
        for (unsigned w = 0; w < LIST_WORKS; w++)
            lines[w * MEASURES + m] =
                w < ALL_STRIPES ? random_line((enum work)w, measures[m], 1, copy) : with_work(&shelf, (enum work)w);
        make_list_lines(&shelf, m);
        for (unsigned n = 0; m == STALE_MEASURES && n < COUNTS; n++)
            make_stale_lines(&shelf, n);
        small_lines(m, copy);
    }
    make_test_lines();
    for (unsigned k = 0; k < P_MEASURES; k++)
        lines[P_LINES + k] = p_line(p_measures[k], copy);
}

/* Makes bytes differ from what they must be. */
void spoil(uint8_t *bytes, const uint8_t *sound, size_t len)
{
    for (size_t k = 0; k < len; k++)
        bytes[k] = (uint8_t)~sound[k];
}

/* Whether a job's call makes the block of a member that has a role: a write makes all, a rebuild those of
   failed members, the others P and Q, or the data indices that they are told. */
static bool makes(const struct job *job, uint32_t member, uint32_t role)
{
    uint32_t n = rebuilds(job->work) ? member : role;
    return job->work == WRITE || n == job->x || n == job->y;
}

/* Spoils the blocks that a job's call makes, or must not look at, in the stripes from one up to another. */
void spoil_made(const struct job *job, uint32_t from_stripe, uint32_t to_stripe)
{
    for (uint32_t t = from_stripe; t < to_stripe; t++)
        for (uint32_t i = 0; i < job->d + job->parities; i++) {
            uint32_t member = member_of(job, t, i);
            size_t from = offset_of(job, member, t);
            if (makes(job, member, i))
                spoil(job->bytes + from, job->sound[job->layout] + from, job->b);
        }
}

/* Ends the program unless bytes are what they must be. */
void hold(const struct job *job, const char *who, const uint8_t *bytes, const uint8_t *sound, size_t len)
{
    if (memcmp(bytes, sound, len) != 0)
        fail(job, who, "the result differs");
}

/* Ends the program unless the job's bytes are what they must be in the layout that they are in. */
void compare(const struct job *job, const char *who)
{
    hold(job, who, job->bytes, job->sound[job->laid == NULL ? SHELF_FIXED : *job->laid], job->len);
}

/* Holds what a variant makes over spoilt blocks to the sound bytes, and the list to what it was. */
static void check_made(const struct job *job, enum variant v)
{
    uint8_t list[MOST_LIST];
    size_t len = job->list == NULL ? 0 : list_len(job);
    if (len > 0)
        memcpy(list, job->list, len);
    spoil_made(job, 0, job->s);
    run_batch(v, job, 1);
    compare(job, variant_names[v]);
    if (len > 0)
        hold(job, variant_names[v], job->list, list, len);
}

/* Holds what a variant reads to the data, one block of it or the blocks of disk x, while failed disks are spoilt. */
static void check_read(const struct job *job, enum variant v)
{
    size_t member = (size_t)job->s * job->b;
    bool disk = job->work == FETCH_ONE || job->work == FETCH_TWO, one = job->work == STALE_BLOCK;
    const uint8_t *want = disk ? job->sound[job->layout] + job->x * member : job->data + job->address * job->b;
    size_t len = disk ? member : one ? job->b : job->d * member;
    spoil(job->copy, want, len);
    if (disk || from_stale(job->work))
        spoil_made(job, 0, job->s);
    run_batch(v, job, 1);
    hold(job, variant_names[v], job->copy, want, len);
    memcpy(job->bytes, job->sound[job->layout], job->len);
}

/* Compares the results of all variants that have one: a copy of all members and a test of the list beside
   another work have none. */
void check(const struct line *line)
{
    enum work work = line->job.work;
    bool reads = (work >= READ && work <= FETCH_TWO) || work == STALE_FETCH || work == STALE_BLOCK;
    if (work == TEST) {
        check_tests(&line->job);
        return;
    }
    for (enum variant v = 0; v < VARIANTS; v++) {
        struct job job = job_of(line, v);
        if (!takes_part(line, v) || ways[v].call[work] == copy_data || ways[v].call[work] == ours_test)
            continue;
        turn_to(&job);
        if (work >= LIST_WORKS && work < STALE_WORKS)
            check_list_call(&job, v);
        else if (reads)
            check_read(&job, v);
        else
            check_made(&job, v);
    }
}
