/* The variants that are timed: for each work, the call of this library's archives, of ISA-L where
   it is there, by the code that it chooses and by that for SSE, of the C rows with the doubling in
   two spellings, of memcpy, of the archives without Q, of C that knows the layouts and of the archives in the
   rotating layout, of the C test of the list, and of a call that only tests the list. */
#include "bench.h"
#include "stripe.h"

/* The export of libprobe.a: the parity of every stripe of an array kept by member. It answers 0. */
uint32_t probe_make_parity_all(uint32_t d, uint32_t parities, uint32_t s, uint32_t b, uint8_t *array, size_t len);

/* Parity of one stripe by the archive. */
static void ours_parity(const struct job *job)
{
    if (stripe_make_parity(job->d, job->parities, job->b, job->bytes, job->len) != 0)
        fail(job, variant_names[OURS], "parity was refused");
}

/* Recovery of one or two members by the archive. */
static void ours_recover(const struct job *job)
{
    if (stripe_recover(job->d, job->parities, job->b, job->x, job->y, job->bytes, job->len) != 0)
        fail(job, variant_names[OURS], "recovery was refused");
}

/* Parity of all stripes by the archive. */
static void ours_all(const struct job *job)
{
    if (probe_make_parity_all(job->d, job->parities, job->s, job->b, job->bytes, job->len) != 0)
        fail(job, variant_names[OURS], "parity of all stripes was refused");
}

/* The calls of a set of C rows: parity of one stripe with Q and without, recovery of one data block and of
   two, and parity of all stripes. */
#define CALLS_OF(set)                                                                              \
    static void set##_parity(const struct job *job)                                                \
    {                                                                                              \
        set##_rows.parity(job->d, job->b, job->b, job->bytes);                                     \
    }                                                                                              \
    static void set##_sum(const struct job *job)                                                   \
    {                                                                                              \
        set##_rows.sum(job->d, job->b, job->bytes);                                                \
    }                                                                                              \
    static void set##_one(const struct job *job)                                                   \
    {                                                                                              \
        set##_rows.recover_one(job->d, job->b, job->x, job->bytes);                                \
    }                                                                                              \
    static void set##_two(const struct job *job)                                                   \
    {                                                                                              \
        set##_rows.recover_two(job->d, job->b, job->x, job->y, job->bytes);                        \
    }                                                                                              \
    static void set##_all(const struct job *job)                                                   \
    {                                                                                              \
        size_t b = job->b, member = job->s * b;                                                    \
        for (uint32_t t = 0; t < job->s; t++)                                                      \
            set##_rows.parity(job->d, b, member, job->bytes + t * b);                              \
    }

CALLS_OF(plain)
CALLS_OF(mask)

/* What a set of ISA-L's functions or of C rows does. */
#define SUMS_OF(set)                                                                               \
    {[PARITY] = set##_pq, [ONE_BLOCK] = set##_xor, [ALL_STRIPES] = set##_pq_all,                   \
     [WRITE] = set##_write, [FETCH_ONE] = set##_xor_all, [REBUILD_ONE] = set##_xor_all,            \
     [REBUILD_PARITY] = set##_pq_all, [FULL_RESYNC] = set##_pq_all, [P_ALONE] = set##_xor}
#define PRODUCTS_OF(set)                                                                           \
    {[PARITY] = set##_encode, [ONE_BLOCK] = set##_encode, [TWO_BLOCKS] = set##_encode,             \
     [FETCH_TWO] = set##_encode_all, [REBUILD_TWO] = set##_encode_all, [P_ALONE] = set##_encode}
#define ROWS_OF(set)                                                                               \
    {[PARITY] = set##_parity, [ONE_BLOCK] = set##_one, [TWO_BLOCKS] = set##_two, [ALL_STRIPES] = set##_all,   \
     [P_ALONE] = set##_sum}

const struct way ways[VARIANTS] = {
    [OURS] = {SHELF_FIXED, false,
     {[PARITY] = ours_parity, [ONE_BLOCK] = ours_recover, [TWO_BLOCKS] = ours_recover, [ALL_STRIPES] = ours_all,
      [WRITE] = ours_write, [READ] = ours_read, [FETCH] = ours_fetch, [FETCH_ONE] = ours_fetch_lost,
      [FETCH_TWO] = ours_fetch_lost, [REBUILD_ONE] = ours_rebuild, [REBUILD_TWO] = ours_rebuild,
      [REBUILD_PARITY] = ours_rebuild, [FULL_RESYNC] = ours_full_resync, [REBUILD_WITH_P] = ours_rebuild,
      [REBUILD_WITH_Q] = ours_rebuild,
      [LOG_AGAIN] = ours_log, [LOG_FIRST] = ours_log, [LOG_MIDDLE] = ours_log, [LOG_LAST] = ours_log,
      [RESYNC] = ours_resync, [DROP] = ours_log, [STALE_REBUILD] = ours_rebuild, [STALE_FETCH] = ours_fetch,
      [STALE_BLOCK] = ours_fetch_one, [TEST] = ours_test,
      [P_ALONE] = ours_parity}},
#ifdef WITH_ISAL
    [ISAL_SUMS] = {SHELF_FIXED, false, SUMS_OF(isal)},
    [SSE_SUMS] = {SHELF_FIXED, false, SUMS_OF(isal_sse)},
    [ISAL_PRODUCTS] = {SHELF_FIXED, false, PRODUCTS_OF(isal)},
    [SSE_PRODUCTS] = {SHELF_FIXED, false, PRODUCTS_OF(isal_sse)},
#endif
    [C_ROWS] = {SHELF_FIXED, false, ROWS_OF(plain)},
    [MASK_ROWS] = {SHELF_FIXED, false, ROWS_OF(mask)},
    [MEMCPY] = {SHELF_FIXED, false,
     {[PARITY] = copy_data, [ONE_BLOCK] = copy_data, [TWO_BLOCKS] = copy_data, [ALL_STRIPES] = copy_data,
      [READ] = copy_blocks, [FETCH] = copy_blocks, [P_ALONE] = copy_data}},
    [SINGLE] = {SHELF_FIXED, true,
     {[WRITE] = ours_write, [REBUILD_ONE] = ours_rebuild, [FULL_RESYNC] = ours_full_resync}},
    [C_FIXED] = {SHELF_FIXED, false,
     {[WRITE] = c_write, [READ] = c_read, [FETCH] = c_read, [REBUILD_ONE] = c_rebuild, [REBUILD_TWO] = c_rebuild_two,
      [FULL_RESYNC] = c_full_resync, [LOG_AGAIN] = c_log}},
    [ROTATING] = {SHELF_ROTATING, false,
     {[WRITE] = ours_write, [READ] = ours_read, [FETCH] = ours_fetch, [REBUILD_ONE] = ours_rebuild,
      [REBUILD_TWO] = ours_rebuild, [FULL_RESYNC] = ours_full_resync, [LOG_AGAIN] = ours_log,
      [LOG_MIDDLE] = ours_log, [RESYNC] = ours_resync}},
    [C_ROTATING] = {SHELF_ROTATING, false,
     {[WRITE] = c_write, [READ] = c_read, [FETCH] = c_read, [REBUILD_ONE] = c_rebuild, [FULL_RESYNC] = c_full_resync}},
    [C_LIST_TEST] = {SHELF_FIXED, false, {[TEST] = c_test}},
    [LIST_TEST] = {SHELF_FIXED, false,
     {[LOG_AGAIN] = ours_test, [LOG_FIRST] = ours_test, [LOG_MIDDLE] = ours_test, [LOG_LAST] = ours_test,
      [RESYNC] = ours_test, [DROP] = ours_test, [STALE_BLOCK] = ours_test}},
};

/* Whether a variant is timed on a line. */
bool takes_part(const struct line *line, enum variant v)
{
    if (ways[v].call[line->job.work] == NULL)
        return false;
    if (ways[v].layout == SHELF_ROTATING || ways[v].single)
        return line->rotating;
    return !line->alone || v == OURS || v == C_FIXED;
}

/* A line's job as it is for a variant: in its layout, and without Q where it works so. */
struct job job_of(const struct line *line, enum variant v)
{
    struct job job = in_layout(&line->job, ways[v].layout);
    return ways[v].single ? without_q(&job) : job;
}
