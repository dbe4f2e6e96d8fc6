/* The lines of shelves with blocks listed: of calls that change the list, of recovery from stale stripes, and of the
   test of the list; and the checks of the calls that change the list. */
#include "bench.h"

#include <string.h>

#define TEST_STRIPES 4096 /* of a shelf whose list is tested; d times it is a multiple of all H */
#define SCATTER 1009      /* a prime, by which listed blocks or stripes follow each other */

static const uint32_t counts[COUNTS] = {16, 256, PLACES}, stale_counts[COUNTS] = {0, 256, 2000};
static const uint32_t test_widths[TEST_WIDTHS] = {5, 16}, test_counts[TEST_COUNTS] = {0, 64, 512, PLACES};
static const uint32_t slots[SLOT_COUNTS] = {SLOTS, 16, 1};

/* The address that is listed as number k: they are spread over the stripes and over the slots. */
static size_t address_of(const struct job *job, size_t k)
{
    return k * SCATTER % ((size_t)job->d * job->s);
}

/* The address in place p of the list, with so many listed. */
static size_t address_in(const struct job *job, uint32_t p, uint32_t count)
{
    double addresses[PLACES];
    for (uint32_t k = 0; k < count; k++)
        addresses[k] = (double)address_of(job, k);
    sort(addresses, count);
    return (size_t)addresses[p];
}

/* Makes a line of a shelf on which so many blocks are listed, but for the one that the call lists. The log's records
   above those that any such shelf uses are left to the call, or none; it looks at no other. The rotating layout is
   timed with one number of blocks. */
static void list_line(struct line *line, const struct line *shelf, enum work work, uint32_t count)
{
    bool adds = work >= LOG_FIRST && work <= LOG_LAST;
    *line = with_work(shelf, work);
    line->rotating = count == counts[LAID_COUNT];
    struct job *job = &line->job;
    set_list(job);
    job->listed = count;
    job->address = address_in(job, work == LOG_FIRST ? 0 : work == LOG_LAST ? count - 1 : count / 2, count);
    for (uint32_t k = 0; k < count; k++)
        if (!adds || address_of(job, k) != job->address)
            job->record = log_blocks(job, address_of(job, k), 1);
    job->record.next = work == DROP ? LOG_RECORDS : 2 * PLACES;
    job->list_before = memcpy(pages(list_len(job)), job->list, list_len(job));
}

/* Makes the lines of calls that change the list, for a pair of measures. They share a list beside the shelf's
   own, which is empty. */
void make_list_lines(const struct line *shelf, unsigned m)
{
    struct line started = *shelf;
    started.job.list_before = shelf->job.list;
    started.job.list = pages(list_len(&shelf->job));
    set_list(&started.job);
    start(&started.job);
    for (unsigned k = 0; k < (STALE_WORKS - LIST_WORKS) * COUNTS; k++)
        list_line(&lines[LIST_LINES + (k / COUNTS * MEASURES + m) * COUNTS + k % COUNTS], &started,
                  (enum work)(LIST_WORKS + k / COUNTS), counts[k % COUNTS]);
}

/* The address that is listed as number k of a shelf with stale stripes: one in a stripe, on every disk and in
   every slot as often. */
static size_t stale_address(const struct job *job, size_t k)
{
    return k * SCATTER % job->s * job->d + k / job->d % job->d;
}

/* Makes a job's own array of a shelf's, and the data and bytes that it must have when its listed blocks are written. */
static void change_listed(struct job *job, const struct job *shelf)
{
    size_t b = job->b, len = (size_t)job->d * job->s * b;
    job->laid = NULL;
    job->bytes = pages(job->len);
    job->data = memcpy(pages(len), shelf->data, len);
    job->sound[SHELF_FIXED] = memcpy(pages(job->len), shelf->sound[SHELF_FIXED], job->len);
    for (size_t k = 0; k < job->listed; k++) {
        size_t address = stale_address(job, k);
        uint8_t *written = job->data + address * b;
        spoil(written, shelf->data + address * b, b);
        memcpy(job->sound[SHELF_FIXED] + (block_at(job, address) - job->bytes), written, b);
    }
}

/* Makes the lines of recovery with one number of blocks listed, by writes to a sound shelf. The lost block that is
   fetched by itself is not listed, while another of its stripe is. */
void make_stale_lines(const struct line *shelf, unsigned n)
{
    struct line line = {.job = shelf->job};
    struct job *job = &line.job;
    job->listed = stale_counts[n];
    change_listed(job, &shelf->job);
    for (unsigned k = 0; k < SLOT_COUNTS; k++) {
        lend(job, slots[k]);
        memcpy(job->bytes, shelf->job.sound[SHELF_FIXED], job->len);
        start(job);
        for (size_t i = 0; i < job->listed; i++)
            job->record = log_blocks(job, stale_address(job, i), 1);
        compare(job, "the writes of listed blocks");
        for (enum work w = STALE_WORKS; w < TEST; w++) {
            struct line *to = &lines[STALE_LINES + ((w - STALE_WORKS) * SLOT_COUNTS + k) * COUNTS + n];
            *to = with_work(&line, w);
            if (w == STALE_BLOCK)
                to->job.address = stale_address(job, job->d + 1) / job->d * job->d + to->job.x;
        }
    }
}

/* Lists so many blocks of a job's shelf, by writes of scattered stripes. A stripe is listed whole by a
   reconstruction-write, and the d / 2 + 1 blocks written lack Ori; then about d blocks are listed by
   read-modify-writes, a few in a stripe, and have both Ori and Cur; and so on. */
static void list_blocks(struct job *job, uint32_t count)
{
    size_t d = job->d, left = count;
    for (size_t k = 0; k < job->s && left > 0; k++) {
        bool whole = (count - left) / d % 2 == 0 && left >= d;
        size_t few = left < d / 4 ? left : d / 4;
        size_t blocks = whole ? d / 2 + 1 : few;
        job->record = log_blocks(job, k * SCATTER % job->s * d + k % (d - blocks + 1), blocks);
        left -= whole ? d : few;
    }
    if (left > 0 || job->record.listed != count)
        fail(job, variant_names[OURS], "another number of blocks is listed");
}

/* Makes a line for the test of the list: a shelf of blocks of one byte, all zero. */
static void test_line(struct line *line, uint32_t d, uint32_t h, uint32_t count)
{
    *line = (struct line){.job = {.work = TEST, .d = d, .b = 1, .s = TEST_STRIPES, .parities = 2, .listed = count}};
    struct job *job = &line->job;
    name_members(job);
    job->len = (size_t)(d + 2) * job->s * job->b;
    job->bytes = pages(job->len);
    lend(job, h);
    job->sound[SHELF_FIXED] = job->data = memcpy(pages(job->len), job->bytes, job->len);
    start(job);
    list_blocks(job, count);
}

/* Makes the lines of the test of the list. */
void make_test_lines(void)
{
    for (unsigned k = 0; k < SMALL_LINES - TEST_LINES; k++)
        test_line(&lines[TEST_LINES + k], test_widths[k / (SLOT_COUNTS * TEST_COUNTS)],
                  slots[k / TEST_COUNTS % SLOT_COUNTS], test_counts[k % TEST_COUNTS]);
}

/* Ends the program unless the list that a call leaves passes, with so many blocks listed. */
static void hold_list(const struct job *job, const char *who, struct shelf_record after, uint32_t listed)
{
    struct job left = *job;
    left.record = after;
    if (after.listed != listed)
        fail(job, who, "another number of blocks is listed");
    if (!list_passes(&left))
        fail(job, who, "the list that is left does not pass");
}

/* Holds a logged block to the data: as it is fetched after the call while its disk is spoilt and failed. */
static void check_logged(const struct job *job, const char *who)
{
    uint8_t *block = block_at(job, job->address);
    const uint8_t *want = job->data + job->address * job->b;
    struct shelf_record after = log_blocks(job, job->address, 1);
    hold_list(job, who, after, job->listed);
    compare(job, who);
    spoil(block, want, job->b);
    spoil(job->copy, want, job->b);
    after.failed[(block - job->bytes) / offset_of(job, 1, 0)] = true;
    fetch_block(job, after, job->address, job->copy);
    hold(job, who, job->copy, want, job->b);
    memcpy(block, want, job->b);
}

/* Holds the parity that a call makes of a stale stripe, which is 0 for a resync, to the sound bytes, and the list to
   what is left without its blocks. */
static void check_dropped(const struct job *job, const char *who)
{
    uint32_t t = job->work == RESYNC ? 0 : (uint32_t)(job->address / job->d), left = job->listed;
    for (uint32_t k = 0; k < job->listed; k++)
        left -= address_of(job, k) / job->d == t;
    spoil_made(job, t, t + 1);
    hold_list(job, who, job->work == RESYNC ? resync(job) : log_blocks(job, job->address, 1), left);
    compare(job, who);
}

/* Holds what the peer of a logged write leaves to what this library's call leaves: the list, the record of the log
   and the array. */
static void check_peer(const struct job *job, const char *who)
{
    uint8_t list[MOST_LIST], *record = job->log + job->record.next * job->b, *block = block_at(job, job->address);
    const uint8_t *want = job->data + job->address * job->b;
    log_blocks(job, job->address, 1);
    memcpy(list, job->list, list_len(job));
    set_list(job);
    spoil(record, want, job->b);
    spoil(block, want, job->b);
    c_log(job);
    hold(job, who, job->list, list, list_len(job));
    hold(job, who, record, want, job->b);
    compare(job, who);
}

/* Checks a variant's call that changes the list. */
void check_list_call(const struct job *job, enum variant v)
{
    set_list(job);
    if (ways[v].call[job->work] == c_log)
        check_peer(job, variant_names[v]);
    else if (job->work == RESYNC || job->work == DROP)
        check_dropped(job, variant_names[v]);
    else
        check_logged(job, variant_names[v]);
}
