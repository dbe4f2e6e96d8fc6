/* What the files of the measuring program share: jobs, the ways in which variants do them, the times of both.
   Every variant works on the job's own bytes, so that all have the same placement. */
#ifndef BENCH_H
#define BENCH_H

#include "results.h"
#include "shelf.h"

#define DATA_BYTES ((size_t)DATA_MIB << 20)
#define SMALL_BYTES ((size_t)SMALL_MIB << 20)

enum { MOST_DATA = 16, MOST_ROUNDS = 200 };

struct job {
    enum work work;
    uint32_t d, b, s; /* data blocks in a stripe, bytes in a block, stripes */
    uint32_t parities;
    uint32_t x, y;    /* the members that are made or have failed; the same one twice counts once */
    size_t len;       /* (d + parities) * s * b */
    uint8_t *bytes;   /* a stripe (data, P, Q), or an array kept by member; with one parity Q stands behind it */
    uint8_t *copy;    /* where memcpy and both reads put the data */

    /* The layout, what the bytes must be after each call in either layout, and the one that they are in
       now, which the jobs of the same bytes share; null where there is only the fixed one. */
    size_t layout, *laid;
    uint8_t *sound[2];

    /* Of an array: the data blocks in the order of their addresses, the record, the log, the list. */
    uint8_t *data, *log, *list;
    uint32_t h; /* the list's slots */
    struct shelf_record record;

    /* With blocks listed: how many, the list as it is before each call that changes it, the block that is
       written or fetched. */
    uint32_t listed;
    uint8_t *list_before;
    size_t address;
};

typedef void call_of_job(const struct job *job);

/* How a variant works: its layout, whether on the array without Q, its call for each work, null where it has none. */
struct way {
    size_t layout;
    bool single;
    call_of_job *call[WORKS];
};

/* A line of a table: a job in the fixed layout, which variants are timed, and for each of them how many
   calls fill a slice and what a call took in each round, in nanoseconds. */
struct line {
    struct job job;
    bool alone;    /* of those of the fixed layout only this library, and C to compare the layouts in */
    bool rotating; /* the variants of the rotating layout and those without Q too */
    uint64_t calls[VARIANTS];
    double times[VARIANTS][MOST_ROUNDS];
};

/* The variants (variants.c). The first results are made by REFERENCE, and the others held to them.
   takes_part: whether a variant is timed on a line. job_of: the line's job as it is for one. */
#ifdef WITH_ISAL
#define REFERENCE ISAL_SUMS
#else
#define REFERENCE C_ROWS
#endif
extern const struct way ways[VARIANTS];
bool takes_part(const struct line *line, enum variant v);
struct job job_of(const struct line *line, enum variant v);

/* The timing (bench.c). turn_to comes before a job's calls, and puts its bytes in its layout; run_batch
   makes calls of a variant and answers what they took, in nanoseconds. fail ends the program with an error. */
uint64_t next_random(void);
void turn_to(const struct job *job);
double run_batch(enum variant v, const struct job *job, uint64_t calls);
void fail(const struct job *job, const char *who, const char *what);

/* The lines (jobs.c): by work, then by measures, and those of calls that change the list by the number of
   blocks listed at last; those of recovery from stale stripes, all with the measures of that number, by work, then
   by slots, then by blocks listed; those of the test of the list by d, then by slots, then by blocks listed; those
   of a small array by number in laid_works, then by measures; those of a stripe without Q by their own
   measures. They are made, and each variant's results compared with what they must be. */
enum { MEASURES = 4, COUNTS = 3, SLOT_COUNTS = 3, STALE_MEASURES = 2, TEST_WIDTHS = 2, TEST_COUNTS = 4 };
enum { LAID_WORKS = 9, LAID_COUNT = 1, P_MEASURES = 6 };
enum {
    LIST_LINES = LIST_WORKS * MEASURES,
    STALE_LINES = LIST_LINES + (STALE_WORKS - LIST_WORKS) * MEASURES * COUNTS,
    TEST_LINES = STALE_LINES + (TEST - STALE_WORKS) * SLOT_COUNTS * COUNTS,
    SMALL_LINES = TEST_LINES + TEST_WIDTHS * SLOT_COUNTS * TEST_COUNTS,
    P_LINES = SMALL_LINES + LAID_WORKS * MEASURES,
    LINES = P_LINES + P_MEASURES
};
extern struct line lines[LINES];
extern const enum work laid_works[LAID_WORKS];
void make_lines(void);
void check(const struct line *line);
void compare(const struct job *job, const char *who);

/* What lines are made of and checked by (jobs.c): bytes at the start of a page; the members that a job's work
   names; a shelf's log and list of so many slots; a line's shelf for another work. spoil makes bytes differ from
   what they must be, spoil_made the blocks that a job's call makes in some stripes; hold ends the program unless
   bytes are what they must be. */
uint8_t *pages(size_t len);
void name_members(struct job *job);
void lend(struct job *job, uint32_t h);
struct line with_work(const struct line *shelf, enum work work);
void spoil(uint8_t *bytes, const uint8_t *sound, size_t len);
void spoil_made(const struct job *job, uint32_t from_stripe, uint32_t to_stripe);
void hold(const struct job *job, const char *who, const uint8_t *bytes, const uint8_t *sound, size_t len);

/* The lines with blocks listed (list_jobs.c): those of calls that change the list, for a pair of measures; those of
   recovery, with one number of blocks; those of the test. check_list_call checks a call that changes the list. */
void make_list_lines(const struct line *shelf, unsigned m);
void make_stale_lines(const struct line *shelf, unsigned n);
void make_test_lines(void);
void check_list_call(const struct job *job, enum variant v);

/* The file of a pass (pass.c), which results.c reads. */
void write_pass(const char *path, unsigned rounds);

/* The shelf (shelf.c): what it is lent beside the array, and this library's calls. The log has
   records for the originals and the latest values of all that can be listed, and those of one write
   more; the slots are the job's, SLOTS at most. format and start change the job's record; log_blocks and
   resync hand back the record after it. ours_passes tells whether the list gets another number than 3. */
enum { LOG_RECORDS = 2 * PLACES + 2, MOST_LIST = 4 * SLOTS + 16 * PLACES };
size_t list_len(const struct job *job);
void format(struct job *job);
void start(struct job *job);
void set_list(const struct job *job);
struct shelf_record log_blocks(const struct job *job, size_t address, size_t count);
struct shelf_record resync(const struct job *job);
bool ours_passes(const struct job *job);
void fetch_block(const struct job *job, struct shelf_record record, size_t address, uint8_t *to);
call_of_job ours_write, ours_read, ours_fetch, ours_fetch_lost, ours_fetch_one, ours_rebuild, ours_full_resync, ours_log,
    ours_resync, ours_test;

/* The layouts by C (layouts.c): a job in another one, a job of the fixed one without Q, the member that has
   a role in a stripe, where a member's block stands in an array; and the bytes put in the job's layout, as
   they must be. turn_array makes the array of the rotating layout from that of the fixed one. The calls work
   in either layout, with two parities; the rebuild of two members in the fixed one alone. */
struct job in_layout(const struct job *job, size_t layout);
struct job without_q(const struct job *job);
uint32_t member_of(const struct job *job, uint32_t t, uint32_t role);
size_t offset_of(const struct job *job, uint32_t member, uint32_t t);
void lay_out(const struct job *job);
void turn_array(const struct job *job);
call_of_job c_write, c_read, c_rebuild, c_rebuild_two, c_full_resync;

/* Blocks copied by C (copies.c): block address of an array, a stripe from the data to the array, and
   all blocks from the array to the copy. */
uint8_t *block_at(const struct job *job, size_t address);
void put_stripe(const struct job *job, uint32_t t);
call_of_job copy_data, copy_blocks;

/* The C rows (rows.c): blocks of b bytes, each stride bytes after the one before it, or, in the last three,
   anywhere. init comes before the others. They are there twice, with the doubling written in two ways. */
struct rows {
    void (*init)(void);
    void (*parity)(uint32_t d, size_t b, size_t stride, uint8_t *first);
    void (*sum)(uint32_t d, size_t b, uint8_t *stripe);
    void (*recover_one)(uint32_t d, size_t b, uint32_t x, uint8_t *stripe);
    void (*recover_two)(uint32_t d, size_t b, uint32_t x, uint32_t y, uint8_t *stripe);
    void (*parity_at)(uint32_t d, size_t b, uint8_t *const *blocks);
    void (*recover_at)(uint32_t d, size_t b, uint32_t x, uint8_t *const *blocks);
    void (*recover_two_at)(uint32_t d, size_t b, uint32_t x, uint32_t y, uint8_t *const *blocks);
};
extern const struct rows plain_rows, mask_rows;

/* The list in C (list.c): whether a job's list passes, a call that ends the program where it does not, and the
   logged write of a listed block. */
bool list_passes(const struct job *job);
call_of_job c_test, c_log;

/* Damaged lists (damage.c), which both tests must refuse, and how many there were. */
extern unsigned damaged_lists;
void check_tests(const struct job *job);

/* ISA-L (isal.c), linked only where it is installed: each call by the code that ISA-L chooses and by
   that for SSE. isal_prepare comes before a job's calls. */
const char *isal_version(void);
void isal_prepare(const struct job *job);
call_of_job isal_pq, isal_pq_all, isal_xor, isal_xor_all, isal_encode, isal_encode_all, isal_write;
call_of_job isal_sse_pq, isal_sse_pq_all, isal_sse_xor, isal_sse_xor_all, isal_sse_encode, isal_sse_encode_all,
    isal_sse_write;

#endif
