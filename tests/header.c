/* A caller of the library that is compiled both as C99 and as C++. It includes each header twice, takes the calls by
 * the types that they have, and exits with 0 if they answer as the headers say. */
#include "stripe.h"
#include "stripe.h"

#include "shelf.h"
#include "shelf.h"

#include <string.h>

typedef uint32_t (*make_call)(uint32_t, uint32_t, uint32_t, uint8_t *, size_t);
typedef uint32_t (*recover_call)(uint32_t, uint32_t, uint32_t, uint32_t, uint32_t, uint8_t *, size_t);

/* Format stores into all three buffers; start and new log only look at them, and fail and put back take a member
 * besides. */
typedef struct shelf_answer (*format_call)(struct shelf_record, uint8_t *, size_t, uint8_t *, size_t, uint8_t *,
                                           size_t);
typedef struct shelf_answer (*look_call)(struct shelf_record, const uint8_t *, size_t, const uint8_t *, size_t,
                                         const uint8_t *, size_t);
typedef struct shelf_answer (*member_call)(struct shelf_record, size_t, const uint8_t *, size_t, const uint8_t *,
                                           size_t, const uint8_t *, size_t);

/* Write looks at the caller's data and stores into the rest; both reads, the plain one and fetch, do the reverse. */
typedef struct shelf_answer (*write_call)(struct shelf_record, size_t, size_t, const uint8_t *, size_t, uint8_t *,
                                          size_t, uint8_t *, size_t, uint8_t *, size_t);
typedef struct shelf_answer (*read_call)(struct shelf_record, size_t, size_t, uint8_t *, size_t, const uint8_t *,
                                         size_t, const uint8_t *, size_t, const uint8_t *, size_t);

/* Resync, rebuild and full resync store into array and list and look at the log; resync tells a stripe besides. */
typedef struct shelf_resynced (*resync_call)(struct shelf_record, uint8_t *, size_t, const uint8_t *, size_t, uint8_t *,
                                             size_t);
typedef struct shelf_answer (*mend_call)(struct shelf_record, uint8_t *, size_t, const uint8_t *, size_t, uint8_t *,
                                         size_t);

/* Makes a stripe without Q, recovers a block of it and P, and has the numbers of its count answered. Hands back the
 * number of the first check that fails, as the functions below do, or 0. */
static int stripe_without_q(void)
{
    const make_call make = stripe_make_parity;
    const recover_call recover = stripe_recover;
    const uint8_t sound[5] = {1, 2, 7, 4, 77};
    uint8_t stripe[5] = {1, 2, 7, 77, 77};

    if (make(3, 1, 1, stripe, 4) != STRIPE_OK || memcmp(stripe, sound, sizeof sound) != 0)
        return 6;
    stripe[1] = 77;
    if (recover(3, 1, 1, 1, 1, stripe, 4) != STRIPE_OK || memcmp(stripe, sound, sizeof sound) != 0)
        return 7;
    stripe[3] = 77;
    if (recover(3, 1, 1, 3, 3, stripe, 4) != STRIPE_OK || memcmp(stripe, sound, sizeof sound) != 0)
        return 8;
    if (make(3, 1, 1, stripe, 5) != STRIPE_BAD_LENGTH || recover(3, 1, 1, 0, 4, stripe, 4) != STRIPE_BAD_MEMBER ||
        recover(3, 1, 1, 0, 3, stripe, 4) != STRIPE_TWO_MISSING)
        return 9;
    if (make(3, STRIPE_MIN_PARITIES - 1, 1, stripe, 3) != STRIPE_BAD_MEASURES ||
        make(2, STRIPE_MAX_PARITIES + 1, 1, stripe, 5) != STRIPE_BAD_MEASURES ||
        memcmp(stripe, sound, sizeof sound) != 0)
        return 10;
    return 0;
}

/* Makes a stripe, recovers two blocks of it and has each number answered once; then goes on with one without Q. */
static int stripe_calls(void)
{
    const make_call make = stripe_make_parity;
    const recover_call recover = stripe_recover;
    const uint8_t sound[5] = {1, 2, 3, 0, 9};
    uint8_t stripe[5] = {1, 2, 3, 77, 77};

    if (make(3, 2, 1, stripe, sizeof stripe) != STRIPE_OK || memcmp(stripe, sound, sizeof sound) != 0)
        return 1;
    stripe[0] = stripe[1] = 77;
    if (recover(3, 2, 1, 0, 1, stripe, sizeof stripe) != STRIPE_OK || memcmp(stripe, sound, sizeof sound) != 0)
        return 2;
    if (make(STRIPE_MAX_DATA + 1, 2, 1, stripe, sizeof stripe) != STRIPE_BAD_MEASURES)
        return 3;
    if (make(STRIPE_MIN_DATA, 2, STRIPE_MAX_BLOCK, stripe, sizeof stripe) != STRIPE_BAD_LENGTH)
        return 4;
    if (recover(3, 2, STRIPE_MIN_BLOCK, 0, 5, stripe, sizeof stripe) != STRIPE_BAD_MEMBER)
        return 5;
    return stripe_without_q();
}

/* Compares the compiler's layout of the record and the answers with the library's: numbers of eight bytes in the order
 * of the header, then nineteen flags of one byte, and no gap before the last. */
static int shelf_layout(void)
{
    const size_t numbers[11] = {
        offsetof(struct shelf_record, geometry.d),      offsetof(struct shelf_record, geometry.s),
        offsetof(struct shelf_record, geometry.b),      offsetof(struct shelf_record, geometry.l),
        offsetof(struct shelf_record, geometry.h),      offsetof(struct shelf_record, geometry.e),
        offsetof(struct shelf_record, geometry.layout), offsetof(struct shelf_record, geometry.parities),
        offsetof(struct shelf_record, mode),            offsetof(struct shelf_record, next),
        offsetof(struct shelf_record, listed),
    };
    size_t i;

    for (i = 0; i < 11; i++)
        if (numbers[i] != 8 * i)
            return 11;
    if (offsetof(struct shelf_record, failed) != 88 || sizeof(bool) != 1)
        return 12;
    if (sizeof(struct shelf_geometry) != 64 || sizeof(struct shelf_record) != 112)
        return 13;
    if (offsetof(struct shelf_answer, code) != 0 || offsetof(struct shelf_answer, shelf) != 8 ||
        sizeof(struct shelf_answer) != 120)
        return 14;
    if (offsetof(struct shelf_resynced, code) != 0 || offsetof(struct shelf_resynced, stripe) != 8 ||
        offsetof(struct shelf_resynced, shelf) != 16 || sizeof(struct shelf_resynced) != 128)
        return 15;
    return 0;
}

/* The buffers of a shelf of 3 data disks, 2 stripes, blocks of 5 bytes, 4 log records, 2 slots and 4 places. Its parity
 * is fixed but where another layout is named, and it has P and Q but where one parity is; array_len is then less. */
static uint8_t array[50], log_bytes[20], list[72];
static size_t array_len = sizeof array;

/* Whether all bytes of a buffer are the same one. */
static int all(const uint8_t *bytes, size_t count, uint8_t byte)
{
    size_t i;

    for (i = 0; i < count; i++)
        if (bytes[i] != byte)
            return 0;
    return 1;
}

/* Whether a record has the geometry of that shelf in this layout and with as many parities as the array has, these
 * numbers and these failed members, bit i for member i. */
static int is_of(size_t layout, struct shelf_record shelf, size_t mode, size_t next, size_t listed, uint32_t failed)
{
    const struct shelf_geometry g = shelf.geometry;
    size_t i;

    for (i = 0; i < SHELF_FLAGS; i++)
        if (shelf.failed[i] != ((failed >> i & 1) != 0))
            return 0;
    return g.d == 3 && g.s == 2 && g.b == 5 && g.l == 4 && g.h == 2 && g.e == 4 && g.layout == layout &&
           (3 + g.parities) * 10 == array_len && shelf.mode == mode && shelf.next == next && shelf.listed == listed;
}

/* The same in the fixed layout. */
static int is(struct shelf_record shelf, size_t mode, size_t next, size_t listed, uint32_t failed)
{
    return is_of(0, shelf, mode, next, listed, failed);
}

/* Whether two records are the same. */
static int same(struct shelf_record a, struct shelf_record b)
{
    return memcmp(&a, &b, offsetof(struct shelf_record, failed) + SHELF_FLAGS) == 0;
}

/* Makes a call on that shelf that only looks at the buffers. */
static struct shelf_answer on(look_call call, struct shelf_record shelf)
{
    return call(shelf, array, array_len, log_bytes, sizeof log_bytes, list, sizeof list);
}

/* Has a member of that shelf fail or put back. */
static struct shelf_answer member_of(member_call call, struct shelf_record shelf, size_t member)
{
    return call(shelf, member, array, array_len, log_bytes, sizeof log_bytes, list, sizeof list);
}

/* Formats that shelf. */
static struct shelf_answer format(struct shelf_record shelf)
{
    const format_call call = shelf_format;

    return call(shelf, array, array_len, log_bytes, sizeof log_bytes, list, sizeof list);
}

/* Writes blocks of that shelf. */
static struct shelf_answer write_blocks(struct shelf_record shelf, size_t address, size_t count, const uint8_t *data,
                                        size_t data_len)
{
    const write_call call = shelf_write;

    return call(shelf, address, count, data, data_len, array, array_len, log_bytes, sizeof log_bytes, list,
                sizeof list);
}

/* Reads blocks of that shelf by either read. */
static struct shelf_answer read_blocks(read_call call, struct shelf_record shelf, size_t address, size_t count,
                                       uint8_t *data, size_t data_len)
{
    return call(shelf, address, count, data, data_len, array, array_len, log_bytes, sizeof log_bytes, list,
                sizeof list);
}

/* Resyncs that shelf. */
static struct shelf_resynced resync(struct shelf_record shelf)
{
    const resync_call call = shelf_resync;

    return call(shelf, array, array_len, log_bytes, sizeof log_bytes, list, sizeof list);
}

/* Rebuilds or fully resyncs that shelf. */
static struct shelf_answer mended(mend_call call, struct shelf_record shelf)
{
    return call(shelf, array, array_len, log_bytes, sizeof log_bytes, list, sizeof list);
}

/* Puts a word into the list. */
static void put(size_t offset, uint32_t word)
{
    size_t i;

    for (i = 0; i < 4; i++)
        list[offset + i] = (uint8_t)(word >> (8 * i));
}

/* On that shelf with a listed block: a word of an unused place that is not none, and the entry on place 2 are refused.
 * The list as it was is taken again. */
static int shelf_arranged(struct shelf_record shelf)
{
    uint8_t kept[sizeof list];

    memcpy(kept, list, sizeof list);
    put(4 * 2 + 16 * 3 + 12, 0);
    if (on(shelf_start, shelf).code != SHELF_BAD_LIST)
        return 35;
    memset(list, 255, sizeof list);
    put(4 * 1, 2);
    memcpy(list + 4 * 2 + 16 * 2, kept + 4 * 2, 16);
    if (on(shelf_start, shelf).code != SHELF_BAD_LIST)
        return 36;
    memcpy(list, kept, sizeof list);
    if (on(shelf_start, shelf).code != SHELF_WRONG_MODE)
        return 37;
    return 0;
}

/* Goes through the numbers that a shelf with a listed block answers: block 1, on place 0. */
static int shelf_listed(struct shelf_record shelf)
{
    struct shelf_answer answer;

    put(4 * 1, 0);
    put(4 * 2, 1);
    put(4 * 2 + 4, 0);
    put(4 * 2 + 8, 1);
    shelf.next = 2;
    shelf.listed = 1;
    answer = on(shelf_start, shelf);
    if (answer.code != SHELF_WRONG_MODE || !is(answer.shelf, SHELF_ACCELERATING, 2, 1, 0))
        return 31;
    answer = member_of(shelf_fail, shelf, 5);
    if (answer.code != SHELF_OK || !is(answer.shelf, SHELF_TRANSITIONAL, 2, 1, 1u << 5))
        return 32;
    if (on(shelf_new_log, answer.shelf).code != SHELF_LISTED)
        return 33;
    put(4 * 2 + 8, 2);
    if (on(shelf_start, shelf).code != SHELF_BAD_LIST)
        return 34;
    put(4 * 2 + 8, 1);
    return shelf_arranged(shelf);
}

/* Formats a shelf, starts it, has members fail, and has each number answered once. */
static int shelf_calls(void)
{
    struct shelf_record shelf = {{3, 2, 5, 4, 2, 4, 0, 2}, 9, 9, 9, {true, true, true}};
    struct shelf_answer answer;

    memset(array, 77, sizeof array);
    memset(log_bytes, 77, sizeof log_bytes);
    memset(list, 77, sizeof list);
    if (on(shelf_start, shelf).code != SHELF_BAD_RECORD)
        return 21;
    if (shelf_format(shelf, array, sizeof array, log_bytes, sizeof log_bytes, list, 71).code != SHELF_BAD_LENGTH)
        return 22;
    if (!all(array, sizeof array, 77) || !all(log_bytes, sizeof log_bytes, 77) || !all(list, sizeof list, 77))
        return 23;
    answer = format(shelf);
    if (answer.code != SHELF_OK || !is(answer.shelf, SHELF_NORMAL, 0, 0, 0))
        return 24;
    if (!all(array, sizeof array, 0) || !all(log_bytes, sizeof log_bytes, 0) || !all(list, sizeof list, 255))
        return 25;
    if (on(shelf_new_log, answer.shelf).code != SHELF_NOT_FAILED)
        return 26;
    shelf = answer.shelf;
    answer = member_of(shelf_fail, shelf, 5);
    if (on(shelf_start, answer.shelf).code != SHELF_LOG_FAILED || on(shelf_new_log, answer.shelf).code != SHELF_OK)
        return 27;
    answer = member_of(shelf_fail, answer.shelf, 4);
    if (answer.code != SHELF_OK || !is(answer.shelf, SHELF_NORMAL, 0, 0, 1u << 5 | 1u << 4))
        return 28;
    if (on(shelf_start, answer.shelf).code != SHELF_ARRAY_FAILED ||
        member_of(shelf_fail, answer.shelf, 4).code != SHELF_ALREADY_FAILED ||
        member_of(shelf_fail, answer.shelf, 0).code != SHELF_LIMIT_REACHED ||
        member_of(shelf_fail, answer.shelf, 6).code != SHELF_BAD_MEMBER)
        return 29;
    answer = on(shelf_start, shelf);
    if (answer.code != SHELF_OK || !is(answer.shelf, SHELF_ACCELERATING, 0, 0, 0))
        return 30;
    return shelf_listed(answer.shelf);
}

/* Whether the block of a member in a stripe is five times this byte. */
static int block_is(size_t member, size_t stripe, uint8_t byte)
{
    return all(array + (member * 2 + stripe) * 5, 5, byte);
}

/* On that shelf with block 1 logged as 7 and these members failed: fetch gives blocks 0 and 1 or is refused with this
 * number, a plain read of them is refused, and one of block 2 is served. A refusal leaves the caller's data, and the
 * record is handed back. */
static int both_reads(struct shelf_record shelf, size_t number)
{
    uint8_t two[10], one[5] = {9, 9, 9, 9, 9};
    struct shelf_answer answer;

    memset(two, 9, sizeof two);
    answer = read_blocks(shelf_read, shelf, 0, 2, two, sizeof two);
    if (answer.code != SHELF_BLOCK_FAILED || !same(answer.shelf, shelf) || !all(two, sizeof two, 9))
        return 71;
    answer = read_blocks(shelf_fetch, shelf, 0, 2, two, sizeof two);
    if (answer.code != number || !same(answer.shelf, shelf))
        return 72;
    if (number == SHELF_OK ? !all(two, 5, 0) || !all(two + 5, 5, 7) : !all(two, sizeof two, 9))
        return 73;
    if (read_blocks(shelf_read, shelf, 2, 1, one, sizeof one).code != SHELF_OK || !all(one, sizeof one, 0))
        return 74;
    if (read_blocks(shelf_read, shelf, 6, 1, one, sizeof one).code != SHELF_BAD_ADDRESS ||
        read_blocks(shelf_read, shelf, 0, 2, one, sizeof one).code != SHELF_BAD_DATA)
        return 75;
    return 0;
}

/* On that shelf with block 1 logged as 7, disks 0 and 1 failed and overwritten: disk 0 gets its zeros again and is put
 * back. A plain read gives block 0, and fetch block 1. Disk 0 is overwritten again. */
static int first_returned(struct shelf_record shelf)
{
    uint8_t one[5] = {9, 9, 9, 9, 9};
    struct shelf_answer answer;

    memset(array, 0, 10);
    answer = member_of(shelf_put_back, shelf, 0);
    if (answer.code != SHELF_OK || !is(answer.shelf, SHELF_ACCELERATING, 2, 1, 1u << 1) || !all(array, 10, 0))
        return 141;
    if (read_blocks(shelf_read, answer.shelf, 0, 1, one, sizeof one).code != SHELF_OK || !all(one, sizeof one, 0))
        return 142;
    if (read_blocks(shelf_read, answer.shelf, 1, 1, one, sizeof one).code != SHELF_BLOCK_FAILED ||
        read_blocks(shelf_fetch, answer.shelf, 1, 1, one, sizeof one).code != SHELF_OK || !all(one, sizeof one, 7))
        return 143;
    memset(array, 55, 10);
    return 0;
}

/* On that shelf with nothing failed: each member of the array fails and is put back by the next call, which leaves the
 * record as it was; before and after that it gets 12, and a sound one beside it too. No byte is stored. */
static int each_returned(struct shelf_record shelf)
{
    const size_t log = shelf_log_member(shelf.geometry);
    struct shelf_answer failed, answer;
    uint8_t kept[sizeof array];
    size_t member;

    memcpy(kept, array, sizeof array);
    for (member = 0; member < log; member++) {
        answer = member_of(shelf_put_back, shelf, member);
        if (answer.code != SHELF_NOT_FAILED || !same(answer.shelf, shelf))
            return 144;
        failed = member_of(shelf_fail, shelf, member);
        answer = member_of(shelf_put_back, failed.shelf, (member + 1) % log);
        if (failed.code != SHELF_OK || answer.code != SHELF_NOT_FAILED || !same(answer.shelf, failed.shelf))
            return 145;
        answer = member_of(shelf_put_back, failed.shelf, member);
        if (answer.code != SHELF_OK || !same(answer.shelf, shelf))
            return 146;
    }
    return memcmp(array, kept, sizeof array) == 0 ? 0 : 147;
}

/* On that shelf with nothing failed: the log and what is above it are not put back, be the log sound or failed; and a
 * list of another length is refused before that. Goes on with the members of the array. */
static int log_not_returned(struct shelf_record shelf)
{
    const size_t log = shelf_log_member(shelf.geometry);
    const struct shelf_answer failed = member_of(shelf_fail, shelf, log);
    struct shelf_answer answer = member_of(shelf_put_back, shelf, log);

    if (answer.code != SHELF_BAD_MEMBER || !same(answer.shelf, shelf))
        return 148;
    answer = member_of(shelf_put_back, failed.shelf, log);
    if (failed.code != SHELF_OK || answer.code != SHELF_BAD_MEMBER || !same(answer.shelf, failed.shelf))
        return 149;
    if (member_of(shelf_put_back, shelf, log + 1).code != SHELF_BAD_MEMBER ||
        member_of(shelf_put_back, shelf, SIZE_MAX).code != SHELF_BAD_MEMBER ||
        shelf_put_back(shelf, log, array, array_len, log_bytes, sizeof log_bytes, list, 71).code != SHELF_BAD_LENGTH)
        return 150;
    return each_returned(shelf);
}

/* On a started shelf: block 1 is logged as 7, disks 0 and 1 fail and are overwritten, read and rebuilt; then the log
 * and disk 0 fail, and block 0 is withheld. */
static int blocks_logged(struct shelf_record shelf)
{
    const uint8_t sevens[5] = {7, 7, 7, 7, 7};
    const uint8_t logged[24] = {255, 255, 255, 255, 0, 0, 0, 0, 1, 0, 0, 0, 0, 0, 0, 0, 1, 0, 0, 0, 255, 255, 255, 255};
    struct shelf_answer answer = write_blocks(shelf, 1, 1, sevens, sizeof sevens);
    int fault;

    if (answer.code != SHELF_OK || !is(answer.shelf, SHELF_ACCELERATING, 2, 1, 0) || !block_is(1, 0, 7))
        return 41;
    if (!all(log_bytes, 5, 0) || !all(log_bytes + 5, 5, 7) || !block_is(3, 0, 0) || !block_is(4, 0, 0) ||
        memcmp(list, logged, sizeof logged) != 0 || !all(list + sizeof logged, sizeof list - sizeof logged, 255))
        return 42;
    shelf = answer.shelf;
    answer = member_of(shelf_fail, member_of(shelf_fail, shelf, 0).shelf, 1);
    memset(array, 55, 20);
    fault = both_reads(answer.shelf, SHELF_OK);
    if (fault == 0)
        fault = first_returned(answer.shelf);
    if (fault != 0)
        return fault;
    if (write_blocks(answer.shelf, 1, 1, sevens, sizeof sevens).code != SHELF_ARRAY_FAILED)
        return 44;
    answer = mended(shelf_rebuild, answer.shelf);
    if (answer.code != SHELF_OK || !is(answer.shelf, SHELF_ACCELERATING, 2, 1, 0) || !all(array, 10, 0) ||
        !block_is(1, 0, 7) || !block_is(1, 1, 0))
        return 45;
    answer = member_of(shelf_fail, member_of(shelf_fail, shelf, 5).shelf, 0);
    if (mended(shelf_rebuild, answer.shelf).code != SHELF_WITHHELD)
        return 47;
    return both_reads(answer.shelf, SHELF_WITHHELD);
}

/* On a shelf with block 1 logged: the numbers of requests, a resync that finds a stripe and ones that are refused, and
 * full resync. */
static int blocks_resynced(struct shelf_record shelf)
{
    const uint8_t two[10] = {1, 1, 1, 1, 1, 2, 2, 2, 2, 2};
    struct shelf_resynced resynced = resync(shelf);
    struct shelf_answer answer;

    if (resynced.code != SHELF_OK || resynced.stripe != 0 || !is(resynced.shelf, SHELF_NORMAL, 0, 0, 0))
        return 51;
    if (!block_is(3, 0, 7) || !block_is(4, 0, 14) || !all(list, sizeof list, 255))
        return 52;
    resynced = resync(resynced.shelf);
    if (resynced.code != SHELF_WRONG_MODE || resynced.stripe != 2 || !is(resynced.shelf, SHELF_NORMAL, 0, 0, 0))
        return 53;
    if (write_blocks(resynced.shelf, 6, 1, two, 5).code != SHELF_BAD_ADDRESS ||
        write_blocks(resynced.shelf, SIZE_MAX, 2, two, 10).code != SHELF_BAD_ADDRESS ||
        write_blocks(resynced.shelf, 5, 1, two, 10).code != SHELF_BAD_DATA)
        return 54;
    answer = write_blocks(resynced.shelf, 2, 2, two, sizeof two);
    if (answer.code != SHELF_OK || !is(answer.shelf, SHELF_NORMAL, 0, 0, 0) || !block_is(2, 0, 1) || !block_is(0, 1, 2))
        return 55;
    if (!block_is(3, 0, 6) || !block_is(3, 1, 2) || !block_is(4, 0, 10) || !block_is(4, 1, 2))
        return 56;
    memset(array + 30, 66, 20);
    memset(list, 66, sizeof list);
    answer = mended(shelf_full_resync, answer.shelf);
    if (answer.code != SHELF_OK || !block_is(3, 0, 6) || !block_is(3, 1, 2) || !block_is(4, 0, 10) ||
        !block_is(4, 1, 2) || !all(list, sizeof list, 255))
        return 57;
    if (mended(shelf_rebuild, answer.shelf).code != SHELF_NOT_FAILED)
        return 58;
    resynced = resync(on(shelf_start, answer.shelf).shelf);
    if (resynced.code != SHELF_OK || resynced.stripe != 2 || !is(resynced.shelf, SHELF_NORMAL, 0, 0, 0))
        return 59;
    return 0;
}

/* Formats and starts a shelf, has P's disk fail and be rebuilt, after which the shelf goes on accelerating, and goes
 * through the calls that serve blocks and bring parity up to date. */
static int shelf_blocks(void)
{
    const struct shelf_record fresh = {{3, 2, 5, 4, 2, 4, 0, 2}, 0, 0, 0, {false}};
    const struct shelf_record started = on(shelf_start, format(fresh).shelf).shelf;
    const struct shelf_answer rebuilt = mended(shelf_rebuild, member_of(shelf_fail, started, 3).shelf);
    struct shelf_record logged = rebuilt.shelf;
    int fault;

    if (rebuilt.code != SHELF_OK || !is(rebuilt.shelf, SHELF_ACCELERATING, 0, 0, 0))
        return 40;
    fault = blocks_logged(rebuilt.shelf);
    if (fault != 0)
        return fault;
    logged.next = 2;
    logged.listed = 1;
    fault = log_not_returned(logged);
    return fault != 0 ? fault : blocks_resynced(logged);
}

/* On that shelf where parity rotates, with block 1 logged as 7 and block 4 as 6: member 2, which has blocks 1 and 5,
 * fails and is overwritten. Fetch gives both, and a plain read neither, but block 4, on member 1. */
static int rotating_reads(struct shelf_record shelf)
{
    const size_t lost[2] = {1, 5}, values[2] = {7, 0};
    uint8_t kept[10], one[5];
    size_t i;

    memcpy(kept, array + 20, sizeof kept);
    memset(array + 20, 55, sizeof kept);
    shelf = member_of(shelf_fail, shelf, 2).shelf;
    for (i = 0; i < 2; i++) {
        memset(one, 9, sizeof one);
        if (read_blocks(shelf_read, shelf, lost[i], 1, one, sizeof one).code != SHELF_BLOCK_FAILED ||
            !all(one, sizeof one, 9))
            return 76;
        if (read_blocks(shelf_fetch, shelf, lost[i], 1, one, sizeof one).code != SHELF_OK ||
            !all(one, sizeof one, (uint8_t)values[i]))
            return 77;
    }
    if (read_blocks(shelf_read, shelf, 4, 1, one, sizeof one).code != SHELF_OK || !all(one, sizeof one, 6))
        return 78;
    memcpy(array + 20, kept, sizeof kept);
    return 0;
}

/* On that shelf where parity rotates. Stripe 0 has P on member 4, Q on member 0 and its data on members 1 to 3; stripe
 * 1 has its data on members 0 to 2, P on 3 and Q on 4. Blocks 0 to 3 are written as 1, 2, 3 and 5; then block 1 is
 * logged as 7 and block 4 as 6. Member 4 fails and is rebuilt: it had parity of either stripe, and nothing remains
 * listed. The shelf goes on accelerating: block 1 is logged as 6, from log record 0 on. */
static int shelf_rotates(void)
{
    const struct shelf_record fresh = {{3, 2, 5, 4, 2, 4, 1, 2}, 0, 0, 0, {false}};
    const uint8_t four[20] = {1, 1, 1, 1, 1, 2, 2, 2, 2, 2, 3, 3, 3, 3, 3, 5, 5, 5, 5, 5};
    const uint8_t sevens[5] = {7, 7, 7, 7, 7}, sixes[5] = {6, 6, 6, 6, 6};
    struct shelf_answer answer = write_blocks(format(fresh).shelf, 0, 4, four, sizeof four);
    int fault;

    if (answer.code != SHELF_OK || !is_of(1, answer.shelf, SHELF_NORMAL, 0, 0, 0))
        return 61;
    if (!block_is(1, 0, 1) || !block_is(2, 0, 2) || !block_is(3, 0, 3) || !block_is(4, 0, 0) || !block_is(0, 0, 9))
        return 62;
    if (!block_is(0, 1, 5) || !block_is(1, 1, 0) || !block_is(2, 1, 0) || !block_is(3, 1, 5) || !block_is(4, 1, 5))
        return 63;
    answer = write_blocks(on(shelf_start, answer.shelf).shelf, 1, 1, sevens, sizeof sevens);
    answer = write_blocks(answer.shelf, 4, 1, sixes, sizeof sixes);
    if (answer.code != SHELF_OK || !is_of(1, answer.shelf, SHELF_ACCELERATING, 4, 2, 0) || !block_is(2, 0, 7) ||
        !block_is(1, 1, 6))
        return 64;
    fault = rotating_reads(answer.shelf);
    if (fault == 0)
        fault = log_not_returned(answer.shelf);
    if (fault != 0)
        return fault;
    answer = member_of(shelf_fail, answer.shelf, 4);
    memset(array + 40, 55, 10);
    answer = mended(shelf_rebuild, answer.shelf);
    if (answer.code != SHELF_OK || !is_of(1, answer.shelf, SHELF_ACCELERATING, 0, 0, 0) || !all(list, sizeof list, 255))
        return 65;
    if (!block_is(4, 0, 5) || !block_is(0, 0, 3) || !block_is(3, 1, 3) || !block_is(4, 1, 9))
        return 66;
    answer = write_blocks(answer.shelf, 1, 1, sixes, sizeof sixes);
    if (answer.code != SHELF_OK || !is_of(1, answer.shelf, SHELF_ACCELERATING, 2, 1, 0) || !block_is(2, 0, 6) ||
        !all(log_bytes, 5, 7) || !all(log_bytes + 5, 5, 6))
        return 67;
    answer.shelf.geometry.layout = 2;
    if (format(answer.shelf).code != SHELF_BAD_RECORD || on(shelf_start, answer.shelf).code != SHELF_BAD_RECORD)
        return 68;
    return 0;
}

/* On that shelf with one parity and nothing listed, sound: the numbers of its members, flags and count. The log is
 * member 4, and one member may be failed. */
static int single_numbers(struct shelf_record shelf)
{
    struct shelf_answer answer = member_of(shelf_fail, shelf, 4);
    struct shelf_record other = shelf;

    if (answer.code != SHELF_OK || !answer.shelf.failed[4] || on(shelf_start, answer.shelf).code != SHELF_LOG_FAILED)
        return 81;
    if (member_of(shelf_fail, answer.shelf, 0).code != SHELF_LIMIT_REACHED ||
        member_of(shelf_fail, answer.shelf, 4).code != SHELF_ALREADY_FAILED ||
        member_of(shelf_fail, answer.shelf, 5).code != SHELF_BAD_MEMBER ||
        mended(shelf_rebuild, answer.shelf).code != SHELF_NOT_FAILED ||
        on(shelf_new_log, answer.shelf).code != SHELF_OK)
        return 82;
    answer.shelf.failed[0] = true;
    other.failed[5] = true;
    if (on(shelf_start, answer.shelf).code != SHELF_BAD_RECORD || on(shelf_start, other).code != SHELF_BAD_RECORD)
        return 83;
    other = shelf;
    other.geometry.parities = SHELF_MAX_PARITIES;
    if (on(shelf_start, other).code != SHELF_BAD_LENGTH || format(other).code != SHELF_BAD_LENGTH)
        return 84;
    other.geometry.parities = SHELF_MAX_PARITIES + 1;
    if (on(shelf_start, other).code != SHELF_BAD_RECORD || format(other).code != SHELF_BAD_RECORD)
        return 85;
    other.geometry.parities = SHELF_MIN_PARITIES - 1;
    if (on(shelf_start, other).code != SHELF_BAD_RECORD || format(other).code != SHELF_BAD_RECORD)
        return 86;
    return 0;
}

/* On that shelf with one parity, with blocks 0 to 2 written as 1, 2, 3 and block 1 logged as 7: disk 0 fails and is
 * overwritten, fetched, refused to a plain read, and rebuilt. Then P is, and nothing remains listed. */
static int single_mended(size_t layout, struct shelf_record shelf)
{
    struct shelf_answer answer = member_of(shelf_fail, shelf, 0);
    uint8_t two[10];

    memset(array, 55, 10);
    memset(two, 9, sizeof two);
    if (answer.code != SHELF_OK || member_of(shelf_fail, answer.shelf, 1).code != SHELF_LIMIT_REACHED)
        return 91;
    if (read_blocks(shelf_read, answer.shelf, 0, 2, two, sizeof two).code != SHELF_BLOCK_FAILED || !all(two, 10, 9))
        return 92;
    if (read_blocks(shelf_fetch, answer.shelf, 0, 2, two, sizeof two).code != SHELF_OK || !all(two, 5, 1) ||
        !all(two + 5, 5, 7))
        return 93;
    answer = mended(shelf_rebuild, answer.shelf);
    if (answer.code != SHELF_OK || !is_of(layout, answer.shelf, SHELF_ACCELERATING, 2, 1, 0) || !block_is(0, 0, 1))
        return 94;
    answer = member_of(shelf_fail, answer.shelf, 3);
    memset(array + 30, 55, 10);
    answer = mended(shelf_rebuild, answer.shelf);
    if (answer.code != SHELF_OK || !is_of(layout, answer.shelf, SHELF_ACCELERATING, 0, 0, 0) || !block_is(3, 0, 5) ||
        !all(list, sizeof list, 255))
        return 95;
    return 0;
}

/* Formats that shelf with one parity, writes blocks 0 to 3 as 1, 2, 3 and 5, and logs block 1 as 7. In stripe 0 P is on
 * member 3 in either layout; in stripe 1 it is on member 3, and where it rotates on member 2, with block 3 on member 3.
 * The ten bytes after the array are not touched. */
static int shelf_single(size_t layout)
{
    const struct shelf_record fresh = {{3, 2, 5, 4, 2, 4, layout, 1}, 0, 0, 0, {false}};
    const uint8_t four[20] = {1, 1, 1, 1, 1, 2, 2, 2, 2, 2, 3, 3, 3, 3, 3, 5, 5, 5, 5, 5};
    const uint8_t sevens[5] = {7, 7, 7, 7, 7};
    struct shelf_answer answer = format(fresh);
    int fault;

    if (answer.code != SHELF_BAD_LENGTH)
        return 101;
    array_len = 40;
    memset(array, 66, sizeof array);
    answer = write_blocks(format(fresh).shelf, 0, 4, four, sizeof four);
    if (answer.code != SHELF_OK || !block_is(0, 0, 1) || !block_is(1, 0, 2) || !block_is(2, 0, 3) || !block_is(3, 0, 0))
        return 102;
    if (!block_is(layout == SHELF_FIXED ? 0 : 2, 1, 5) || !block_is(layout == SHELF_FIXED ? 2 : 0, 1, 0) ||
        !block_is(1, 1, 0) || !block_is(3, 1, 5))
        return 103;
    fault = single_numbers(answer.shelf);
    if (fault != 0)
        return fault;
    answer = write_blocks(on(shelf_start, answer.shelf).shelf, 1, 1, sevens, sizeof sevens);
    if (answer.code != SHELF_OK || !is_of(layout, answer.shelf, SHELF_ACCELERATING, 2, 1, 0) || !block_is(3, 0, 0))
        return 104;
    fault = log_not_returned(answer.shelf);
    if (fault == 0)
        fault = single_mended(layout, answer.shelf);
    if (fault == 0 && !all(array + 40, 10, 66))
        fault = 105;
    array_len = sizeof array;
    return fault;
}

/* Whether a geometry asks for these bytes of a member, the array, the log and the list. */
static int asks_for(struct shelf_geometry g, size_t member, size_t whole, size_t log, size_t words)
{
    return shelf_in_range(g) == (whole != 0) && shelf_member_len(g) == member && shelf_array_len(g) == whole &&
           shelf_log_len(g) == log && shelf_list_len(g) == words;
}

/* The lengths that the least and the largest shelf ask for, which format accepts of this one and refuses of any other;
 * none for a measure out of its range. */
static int shelf_lengths(void)
{
    const struct shelf_geometry least = {2, 1, 1, 1, 1, 1, 0, 1}, most = {16, 65536, 4096, 65536, 256, 4096, 1, 2};
    const size_t below[8] = {1, 0, 0, 0, 0, 0, 0, 0}, above[8] = {17, 65537, 4097, 65537, 257, 4097, 2, 3};
    const struct shelf_record fresh = {{3, 2, 5, 4, 2, 4, 0, 2}, 0, 0, 0, {false}};
    size_t fields[8], i;
    struct shelf_geometry other;

    if (!asks_for(least, 1, 3, 1, 20) || !asks_for(most, 268435456, 4831838208, 268435456, 66560))
        return 111;
    if (!asks_for(fresh.geometry, 10, sizeof array, sizeof log_bytes, sizeof list) || shelf_log_member(least) != 3 ||
        format(fresh).code != SHELF_OK || shelf_log_member(most) != 18)
        return 112;
    for (i = 0; i < 16; i++) {
        memcpy(fields, &least, sizeof fields);
        fields[i % 8] = i < 8 ? below[i] : above[i - 8];
        memcpy(&other, fields, sizeof other);
        if (i != 6 && !asks_for(other, 0, 0, 0, 0))
            return 113;
    }
    if (stripe_len(3, 2, 5) != 25 || stripe_len(16, 1, 4096) != 69632 || stripe_len(1, 2, 5) != 0 ||
        stripe_len(17, 2, 5) != 0 || stripe_len(3, 0, 5) != 0 || stripe_len(3, 3, 5) != 0 || stripe_len(3, 2, 0) != 0 ||
        stripe_len(3, 2, 4097) != 0)
        return 114;
    return 0;
}

/* A record saved: its numbers in eight bytes each, then its flags, and nothing behind them; taken back as it was. One
 * with a flag that is neither 0 nor 1 is not taken. */
static int shelf_saved(void)
{
    const struct shelf_record given = {{3, 2, 5, 0x01020304, 2, 4, 1, 2}, 1, 7, 6, {false, true}};
    struct shelf_record taken = {{1, 1, 1, 1, 1, 1, 1, 1}, 1, 1, 1, {true}};
    const struct shelf_record before = taken;
    uint8_t bytes[SHELF_RECORD_BYTES + 1];
    size_t i;

    memset(bytes, 66, sizeof bytes);
    shelf_save(given, bytes);
    if (bytes[0] != 3 || bytes[24] != 4 || bytes[25] != 3 || bytes[26] != 2 || bytes[27] != 1 || bytes[28] != 0 ||
        bytes[48] != 1 || bytes[56] != 2 || bytes[64] != 1 || bytes[72] != 7 || bytes[80] != 6 || bytes[88] != 0 ||
        bytes[89] != 1 || bytes[106] != 0 || bytes[SHELF_RECORD_BYTES] != 66)
        return 121;
    for (i = 88; i < SHELF_RECORD_BYTES; i++) {
        const uint8_t flag = bytes[i];
        bytes[i] = 2;
        if (shelf_load(bytes, &taken) || !same(taken, before))
            return 122;
        bytes[i] = flag;
    }
    if (!shelf_load(bytes, &taken) || !same(taken, given))
        return 123;
    return 0;
}

/* Whether a number has a name that begins so and a text, or neither. */
static int is_named(const char *start, const char *name, const char *text, int answered)
{
    if (!answered)
        return name[0] == 0 && text[0] == 0;
    return strncmp(name, start, strlen(start)) == 0 && name[strlen(start)] != 0 && text[0] != 0;
}

/* Every number that a call answers has its name and a text, all others have none. */
static int numbers_named(void)
{
    size_t i, other;

    for (i = 0; i < 100; i++) {
        if (!is_named("SHELF_", shelf_name(i), shelf_text(i), i < 17 && i != 15))
            return 131;
        if (!is_named("STRIPE_", stripe_name((uint32_t)i), stripe_text((uint32_t)i),
                      i < 3 || i == STRIPE_BAD_MEMBER || i == STRIPE_TWO_MISSING))
            return 132;
        for (other = 0; other < i && shelf_name(i)[0] != 0; other++)
            if (strcmp(shelf_name(i), shelf_name(other)) == 0 || strcmp(shelf_text(i), shelf_text(other)) == 0)
                return 133;
    }
    if (strcmp(shelf_name(SHELF_BAD_LIST), "SHELF_BAD_LIST") != 0 || SHELF_VERSION != STRIPE_VERSION)
        return 134;
    return 0;
}

/* Goes through both headers. */
int main(void)
{
    int fault = stripe_calls();

    if (fault == 0)
        fault = shelf_layout();
    if (fault == 0)
        fault = shelf_calls();
    if (fault == 0)
        fault = shelf_blocks();
    if (fault == 0)
        fault = shelf_rotates();
    if (fault == 0)
        fault = shelf_single(SHELF_FIXED);
    if (fault == 0)
        fault = shelf_single(SHELF_ROTATING);
    if (fault == 0)
        fault = shelf_lengths();
    if (fault == 0)
        fault = shelf_saved();
    if (fault == 0)
        fault = numbers_named();
    return fault;
}
