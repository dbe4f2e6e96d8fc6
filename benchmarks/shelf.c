/* The calls of libshelf.a on a job: over its whole array, and one at a time with blocks listed. */
#include "bench.h"

#include <string.h>

#define BUFFERS(job) (job)->bytes, (job)->len, (job)->log, (size_t)LOG_RECORDS * (job)->b, (job)->list, list_len(job)

/* Ends the program unless a call answered the number that it must. */
static void expect(const struct job *job, size_t code, size_t must)
{
    if (code != must)
        fail(job, variant_names[OURS], "a call of the shelf did not answer what it must");
}

/* How many bytes the list has. */
size_t list_len(const struct job *job)
{
    return 4 * (size_t)job->h + 16 * PLACES;
}

/* Makes a fresh shelf of the job's measures, layout and parities. */
void format(struct job *job)
{
    struct shelf_record fresh = {
        {job->d, job->s, job->b, LOG_RECORDS, job->h, PLACES, job->layout, job->parities}, 0, 0, 0, {false}};
    struct shelf_answer a = shelf_format(fresh, BUFFERS(job));
    expect(job, a.code, SHELF_OK);
    job->record = a.shelf;
}

/* Lets the shelf put parity off. */
void start(struct job *job)
{
    struct shelf_answer a = shelf_start(job->record, BUFFERS(job));
    expect(job, a.code, SHELF_OK);
    job->record = a.shelf;
}

/* Makes the list what it is before each call. */
void set_list(const struct job *job)
{
    memcpy(job->list, job->list_before, list_len(job));
}

/* Writes blocks of a stripe in mode 1. Hands back the record after it. */
struct shelf_record log_blocks(const struct job *job, size_t address, size_t count)
{
    const uint8_t *data = job->data + address * job->b;
    struct shelf_answer a = shelf_write(job->record, address, count, data, count * job->b, BUFFERS(job));
    expect(job, a.code, SHELF_OK);
    return a.shelf;
}

/* Reads one block, which may be on a failed member. */
void fetch_block(const struct job *job, struct shelf_record record, size_t address, uint8_t *to)
{
    expect(job, shelf_fetch(record, address, 1, to, job->b, BUFFERS(job)).code, SHELF_OK);
}

/* Writes all blocks in one call. */
void ours_write(const struct job *job)
{
    size_t count = (size_t)job->d * job->s;
    expect(job, shelf_write(job->record, 0, count, job->data, count * job->b, BUFFERS(job)).code, SHELF_OK);
}

/* Reads all blocks in one call of either read. */
#define READS_ALL(name, call)                                                                              \
    void name(const struct job *job)                                                                       \
    {                                                                                                      \
        size_t count = (size_t)job->d * job->s;                                                            \
        expect(job, call(job->record, 0, count, job->copy, count * job->b, BUFFERS(job)).code, SHELF_OK);  \
    }
READS_ALL(ours_read, shelf_read)
READS_ALL(ours_fetch, shelf_fetch)

/* Reads the blocks of disk x, a call a block. */
void ours_fetch_lost(const struct job *job)
{
    for (size_t t = 0; t < job->s; t++)
        fetch_block(job, job->record, t * job->d + job->x, job->copy + t * job->b);
}

/* Reads the job's block. */
void ours_fetch_one(const struct job *job)
{
    fetch_block(job, job->record, job->address, job->copy);
}

/* Fills the failed members in one call. */
void ours_rebuild(const struct job *job)
{
    expect(job, shelf_rebuild(job->record, BUFFERS(job)).code, SHELF_OK);
}

/* Makes all parity in one call. */
void ours_full_resync(const struct job *job)
{
    expect(job, shelf_full_resync(job->record, BUFFERS(job)).code, SHELF_OK);
}

/* Writes the job's block, which the shelf logs where the log has room. */
void ours_log(const struct job *job)
{
    log_blocks(job, job->address, 1);
}

/* Makes the parity of the lowest stale stripe, which is 0. Hands back the record after it. */
struct shelf_record resync(const struct job *job)
{
    struct shelf_resynced r = shelf_resync(job->record, BUFFERS(job));
    expect(job, r.code, SHELF_OK);
    expect(job, r.stripe, 0);
    return r.shelf;
}

/* The same as a call to be timed. */
void ours_resync(const struct job *job)
{
    resync(job);
}

/* A call that does no more than test the list: it is refused for the mode. */
void ours_test(const struct job *job)
{
    expect(job, shelf_start(job->record, BUFFERS(job)).code, SHELF_WRONG_MODE);
}

/* The same call of a list that may be damaged: whether it passes. */
bool ours_passes(const struct job *job)
{
    size_t code = shelf_start(job->record, BUFFERS(job)).code;
    if (code != SHELF_BAD_LIST)
        expect(job, code, SHELF_WRONG_MODE);
    return code != SHELF_BAD_LIST;
}
