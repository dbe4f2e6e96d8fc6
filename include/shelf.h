/* shelf.h: the record shelf, a log-assisted array with two parities (RAID-6) or one. Link with libshelf.a.
 *
 * A shelf is a record, which each call takes by value and hands back, and three buffers that the caller lends: the
 * array of N = d + parities members, the log and the list. docs/MANUAL.md of the source has what stands where in them,
 * the conditions of a shelf and the way back from each, how shelves are kept on disks, and what changed from version to
 * version.
 *
 * Every call takes any arguments and any lengths, and ends. It answers 0, or it refuses with the first number that
 * applies, in rising order; a refusal stores nothing, neither in the shelf's buffers nor in the caller's data, and
 * hands the record back as it was given. What a call is not said to store keeps its bytes.
 */
#ifndef KUMIROVE_SHELF_H
#define KUMIROVE_SHELF_H

#include <stddef.h>
#include <stdint.h>
#include <string.h>

#ifndef __cplusplus
#include <stdbool.h>
#endif

#ifdef __cplusplus
extern "C" {
#endif

/* The version, which rises with each change that a caller can see. */
#define SHELF_VERSION 8

/* The ranges of the measures. */
#define SHELF_MIN_DATA 2
#define SHELF_MAX_DATA 16
#define SHELF_MIN_PARITIES 1
#define SHELF_MAX_PARITIES 2
#define SHELF_MIN_STRIPES 1
#define SHELF_MAX_STRIPES 65536
#define SHELF_MIN_BLOCK 1
#define SHELF_MAX_BLOCK 4096
#define SHELF_MIN_LOG 1
#define SHELF_MAX_LOG 65536
#define SHELF_MIN_SLOTS 1
#define SHELF_MAX_SLOTS 256
#define SHELF_MIN_PLACES 1
#define SHELF_MAX_PLACES 4096

/* The layouts: which member has P, Q and the data blocks of a stripe. */
#define SHELF_FIXED 0
#define SHELF_ROTATING 1

/* The modes. */
#define SHELF_NORMAL 0       /* no block is listed */
#define SHELF_ACCELERATING 1 /* blocks may be listed; the log is sound */
#define SHELF_TRANSITIONAL 2 /* blocks are listed */

/* The word of the list that means none. */
#define SHELF_NONE UINT32_C(0xffffffff)

/* How many failure flags a record has: one for each member of a shelf with the most disks and two parities. */
#define SHELF_FLAGS 19

/* How many bytes a saved record has. */
#define SHELF_RECORD_BYTES 107

/* The numbers answered, in the order in which they are tried; SHELF_OK where no other applies. None is 15. All reasons
 * for 1 and 3 stand in the manual. */
#define SHELF_BAD_RECORD 1      /* a measure is outside its range, or the rest of the record contradicts itself */
#define SHELF_BAD_LENGTH 2      /* array, log or list has not the length that the geometry asks for */
#define SHELF_BAD_LIST 3        /* the list is impossible, or not in its one arrangement */
#define SHELF_BAD_ADDRESS 4     /* count is 0, or address + count is above d * S, as a sum without overflow */
#define SHELF_BAD_DATA 5        /* data_len is not count * B */
#define SHELF_BAD_MEMBER 6      /* the member is above the log, d + parities (shelf_fail); it is the log or above
                                 * (shelf_put_back) */
#define SHELF_WRONG_MODE 7      /* the mode is not 0 (shelf_start); the mode is 0 (shelf_resync) */
#define SHELF_ARRAY_FAILED 8    /* a member of the array has failed */
#define SHELF_LOG_FAILED 9      /* the log has failed */
#define SHELF_ALREADY_FAILED 10 /* the member has already failed */
#define SHELF_LIMIT_REACHED 11  /* as many members have already failed as there are parities */
#define SHELF_NOT_FAILED 12     /* the member has not failed (shelf_put_back); no array member has failed
                                 * (shelf_rebuild); the log is sound (shelf_new_log) */
#define SHELF_LISTED 13         /* blocks are listed */
#define SHELF_WITHHELD 14       /* the log has failed, and a block that is asked for (shelf_fetch), or any data block
                                 * (shelf_rebuild), is on a failed member in a stale stripe; never with one parity */
#define SHELF_BLOCK_FAILED 16   /* a block that is asked for (shelf_read) is on a failed member */
#define SHELF_OK 0

/* The measures of a shelf: 64 bytes. */
struct shelf_geometry {
    size_t d;        /* at 0: data blocks of a stripe, 2 to 16 */
    size_t s;        /* at 8: S, stripes, 1 to 65536 */
    size_t b;        /* at 16: B, bytes of a block and of a log record, 1 to 4096 */
    size_t l;        /* at 24: L, records of the log, 1 to 65536 */
    size_t h;        /* at 32: H, slots of the list, 1 to 256 */
    size_t e;        /* at 40: E, places of the list, 1 to 4096 */
    size_t layout;   /* at 48: SHELF_FIXED or SHELF_ROTATING */
    size_t parities; /* at 56: 2: P and Q; 1: P */
};

/* The record of a shelf: 112 bytes, of which the last five are not used. */
struct shelf_record {
    struct shelf_geometry geometry; /* at 0 */
    size_t mode;                    /* at 64: SHELF_NORMAL, SHELF_ACCELERATING or SHELF_TRANSITIONAL */
    size_t next;                    /* at 72: the next free record of the log: those below it are used */
    size_t listed;                  /* at 80: how many blocks are listed */
    bool failed[SHELF_FLAGS];       /* at 88: whether member i has failed; a byte each, 0 or 1, in every call */
};

/* The calls of the library take the record as it stands in memory on a 64-bit machine. */
typedef char shelf_record_has_112_bytes[sizeof(struct shelf_record) == 112 ? 1 : -1];

/* What a call hands back: its number, and the record after it. */
struct shelf_answer {
    size_t code;
    struct shelf_record shelf;
};

/* What shelf_resync hands back: its number, the stripe that it made, and the record after it. */
struct shelf_resynced {
    size_t code;
    size_t stripe; /* S where none was stale, and where the call is refused */
    struct shelf_record shelf;
};

/* An answer that is not looked at is warned of: it has the record for the next call. */
#ifdef __GNUC__
#define SHELF_ANSWER __attribute__((warn_unused_result))
#else
#define SHELF_ANSWER
#endif

/* All calls take
 *
 *   shelf              the record
 *   array, array_len   the array, not NULL, and how many bytes it has: N * S * B
 *   log, log_len       the log, not NULL, and how many bytes it has: L * B
 *   list, list_len     the list, not NULL, and how many bytes it has: 4 * H + 16 * E
 *
 * and shelf_write, shelf_read and shelf_fetch besides
 *
 *   address, count     the first block's address, and how many blocks: at least 1, up to the last address
 *   data, data_len     the caller's data, not NULL, and how many bytes it has: count * B; the blocks stand in it in the
 *                      order of their addresses
 *
 * The buffers of one call do not overlap, and are at any alignment. One into which a call never stores is const. P and
 * Q stand for P alone where there is one parity. A stripe with a listed block is stale.
 */

/* Sets up a fresh shelf of the record's geometry. What else is in the record may be anything, but that its flags are
 * bytes of 0 or 1; what the buffers hold may be anything.
 *
 * Answers 0, 1 (for the geometry alone) or 2. Stores all of array and log, which become 0 in every byte, and all of the
 * list, which becomes none in every word. The record handed back has the geometry, mode 0, next 0, listed 0 and no flag
 * set.
 */
SHELF_ANSWER struct shelf_answer shelf_format(struct shelf_record shelf, uint8_t *array, size_t array_len, uint8_t *log,
                                              size_t log_len, uint8_t *list, size_t list_len);

/* Goes from mode 0 to mode 1: from now on parity is put off.
 *
 * Answers 0, 1, 2, 3, 7, 8 or 9. Stores nothing. The record handed back is the given one in mode 1.
 */
SHELF_ANSWER struct shelf_answer shelf_start(struct shelf_record shelf, const uint8_t *array, size_t array_len,
                                             const uint8_t *log, size_t log_len, const uint8_t *list, size_t list_len);

/* Notes that a member has failed.
 *
 *   member   0 to d + parities, which is the log
 *
 * Answers 0, 1, 2, 3, 6, 10 or 11. Stores nothing. The record handed back is the given one with the member's flag set;
 * if the member is the log, mode 1 becomes 2 where blocks are listed, else 0.
 */
SHELF_ANSWER struct shelf_answer shelf_fail(struct shelf_record shelf, size_t member, const uint8_t *array,
                                            size_t array_len, const uint8_t *log, size_t log_len, const uint8_t *list,
                                            size_t list_len);

/* Takes back that a member of the array has failed: a sound disk was pulled and pushed in again. It is for the same
 * disk, to which nothing was written since shelf_fail; the library does not look, and docs/MANUAL.md says more.
 *
 *   member   0 to d + parities - 1: not the log
 *
 * Answers 0, 1, 2, 3, 6 or 12. Stores nothing. The record handed back is the given one with the member's flag cleared.
 */
SHELF_ANSWER struct shelf_answer shelf_put_back(struct shelf_record shelf, size_t member, const uint8_t *array,
                                                size_t array_len, const uint8_t *log, size_t log_len,
                                                const uint8_t *list, size_t list_len);

/* Writes blocks. The stripes are taken in rising order, and each is finished before the next:
 *
 *   - In mode 1, if log and list have room for it, the stripe is logged. The unlisted ones of the blocks to be written
 *     are pre-read (read-modify-write), or the unlisted ones of the stripe's other blocks, if these are fewer
 *     (reconstruction-write). The pre-read blocks are appended to the log in the order of their addresses and noted as
 *     Ori, then the new ones as Cur, and all of them are listed. P and Q stay, and the stripe is stale.
 *   - Else P and Q are made, and the stripe's listed blocks are dropped. The stripe is not stale.
 *
 * Answers 0, 1, 2, 3, 4, 5 or 8. Stores the blocks on their members, P and Q of each stripe that is not logged, free
 * records of the log for one that is, and the entries of the stripes written, where they change. In the record handed
 * back, next is above the records taken, and listed counts the blocks that are listed now. Whenever the last listed
 * block is dropped, next becomes 0 and mode 2 becomes 0; mode 1 remains.
 */
SHELF_ANSWER struct shelf_answer shelf_write(struct shelf_record shelf, size_t address, size_t count,
                                             const uint8_t *data, size_t data_len, uint8_t *array, size_t array_len,
                                             uint8_t *log, size_t log_len, uint8_t *list, size_t list_len);

/* Reads blocks from sound members: the plain read. It gives them as they stand there.
 *
 * Answers 0, 1, 2, 3, 4, 5 or 16. Stores the blocks in data, and nothing else. The record handed back is the given one.
 * No byte of the log is looked at, and the list for number 3 only.
 */
SHELF_ANSWER struct shelf_answer shelf_read(struct shelf_record shelf, size_t address, size_t count, uint8_t *data,
                                            size_t data_len, const uint8_t *array, size_t array_len,
                                            const uint8_t *log, size_t log_len, const uint8_t *list, size_t list_len);

/* Reads blocks from sound and failed members: the recovering read (degraded read). A block on a sound member is taken
 * from there, as shelf_read takes it. A block on a failed one is taken from its Cur, else from its Ori, else it is
 * worked back by parity from the originals of its stripe: a listed block's Ori, an unlisted one's bytes if its member
 * is sound, and P and Q as far as theirs are.
 *
 * Answers 0, 1, 2, 3, 4, 5 or 14. Stores the blocks in data, and nothing else. The record handed back is the given one.
 */
SHELF_ANSWER struct shelf_answer shelf_fetch(struct shelf_record shelf, size_t address, size_t count, uint8_t *data,
                                             size_t data_len, const uint8_t *array, size_t array_len,
                                             const uint8_t *log, size_t log_len, const uint8_t *list, size_t list_len);

/* Makes P and Q of the lowest stale stripe and drops its listed blocks.
 *
 * Answers 0, 1, 2, 3, 7 or 8, and the stripe. Stores P and Q of that stripe, and the list without its entries. In the
 * record handed back, listed is less by the blocks dropped, and the mode is 2, or, if no block is left listed, the mode
 * and next are 0. With 0 and the stripe S, none was stale: nothing is stored, and the record handed back is the given
 * one in mode 0. With another number the stripe is the s of the record as it was given, whatever that is.
 */
SHELF_ANSWER struct shelf_resynced shelf_resync(struct shelf_record shelf, uint8_t *array, size_t array_len,
                                                const uint8_t *log, size_t log_len, uint8_t *list, size_t list_len);

/* Fills all failed array members.
 *
 * Answers 0, 1, 2, 3, 12 or 14. Stores every data block on a failed member, which is what shelf_fetch would give; P and
 * Q of each stripe that had a parity on a failed member; and the list without the entries of these stripes. The record
 * handed back has no flag of an array member set; the log's flag is as it was, and listed counts the blocks left
 * listed. If none is, next is 0, and mode 2 becomes 0; else next and the mode remain. Mode 1 remains in either case.
 */
SHELF_ANSWER struct shelf_answer shelf_rebuild(struct shelf_record shelf, uint8_t *array, size_t array_len,
                                               const uint8_t *log, size_t log_len, uint8_t *list, size_t list_len);

/* Takes a new log into use in place of the failed one. What it holds may be anything.
 *
 * Answers 0, 1, 2, 3, 12 or 13. Stores nothing. The record handed back is the given one with the log's flag cleared;
 * its mode is 0.
 */
SHELF_ANSWER struct shelf_answer shelf_new_log(struct shelf_record shelf, const uint8_t *array, size_t array_len,
                                               const uint8_t *log, size_t log_len, const uint8_t *list,
                                               size_t list_len);

/* Makes P and Q of every stripe from the data blocks as they stand, whatever the list holds, and empties the list: for
 * a list that was lost, or in place of many resyncs.
 *
 * Answers 0, 1, 2 or 8. Stores P and Q of every stripe, and all of the list, which becomes none in every word. The
 * record handed back is the given one with listed 0, next 0 and mode 0.
 */
SHELF_ANSWER struct shelf_answer shelf_full_resync(struct shelf_record shelf, uint8_t *array, size_t array_len,
                                                   const uint8_t *log, size_t log_len, uint8_t *list, size_t list_len);

/* Whether every measure of a geometry is in its range, so that it does not get SHELF_BAD_RECORD. */
static inline bool shelf_in_range(struct shelf_geometry g)
{
    return g.d >= SHELF_MIN_DATA && g.d <= SHELF_MAX_DATA && g.s >= SHELF_MIN_STRIPES && g.s <= SHELF_MAX_STRIPES &&
           g.b >= SHELF_MIN_BLOCK && g.b <= SHELF_MAX_BLOCK && g.l >= SHELF_MIN_LOG && g.l <= SHELF_MAX_LOG &&
           g.h >= SHELF_MIN_SLOTS && g.h <= SHELF_MAX_SLOTS && g.e >= SHELF_MIN_PLACES && g.e <= SHELF_MAX_PLACES &&
           g.layout <= SHELF_ROTATING && g.parities >= SHELF_MIN_PARITIES && g.parities <= SHELF_MAX_PARITIES;
}

/* How many bytes a geometry asks for, of a member of the array, of the array, of the log and of the list. Each is 0 for
 * a geometry out of its ranges. */
static inline size_t shelf_member_len(struct shelf_geometry g)
{
    return shelf_in_range(g) ? g.s * g.b : 0;
}

static inline size_t shelf_array_len(struct shelf_geometry g)
{
    return shelf_in_range(g) ? (g.d + g.parities) * g.s * g.b : 0;
}

static inline size_t shelf_log_len(struct shelf_geometry g)
{
    return shelf_in_range(g) ? g.l * g.b : 0;
}

static inline size_t shelf_list_len(struct shelf_geometry g)
{
    return shelf_in_range(g) ? 4 * g.h + 16 * g.e : 0;
}

/* The number of the log as a member, for shelf_fail. The members of the array, which shelf_put_back takes, are those
 * below it. */
static inline size_t shelf_log_member(struct shelf_geometry g)
{
    return g.d + g.parities;
}

/* Puts a record into bytes, to be saved: eleven numbers of eight bytes, lowest first, in the order of their fields,
 * then the nineteen flags. */
static inline void shelf_save(struct shelf_record shelf, uint8_t bytes[SHELF_RECORD_BYTES])
{
    memcpy(bytes, &shelf, SHELF_RECORD_BYTES);
}

/* Takes a record from the bytes of a saved one. If a flag is neither 0 nor 1 the answer is false, and the record stays
 * as it was. Whatever else is wrong may get 1, 2 or 3 from the next call, or pass: so a checksum is saved beside it. */
SHELF_ANSWER static inline bool shelf_load(const uint8_t bytes[SHELF_RECORD_BYTES], struct shelf_record *shelf)
{
    size_t i;

    for (i = offsetof(struct shelf_record, failed); i < SHELF_RECORD_BYTES; i++)
        if (bytes[i] > 1)
            return false;
    memset(shelf, 0, sizeof *shelf);
    memcpy(shelf, bytes, SHELF_RECORD_BYTES);
    return true;
}

/* The numbers with a short text each. */
#define SHELF_EACH_NUMBER(X)                                                      \
    X(SHELF_OK, "accepted")                                                       \
    X(SHELF_BAD_RECORD, "the geometry is out of range or the record impossible")  \
    X(SHELF_BAD_LENGTH, "array, log or list has not its length")                  \
    X(SHELF_BAD_LIST, "the list is damaged")                                      \
    X(SHELF_BAD_ADDRESS, "no such blocks")                                        \
    X(SHELF_BAD_DATA, "the data have not the length of the blocks")               \
    X(SHELF_BAD_MEMBER, "no such member for this call")                           \
    X(SHELF_WRONG_MODE, "not in this mode")                                       \
    X(SHELF_ARRAY_FAILED, "a member of the array has failed")                     \
    X(SHELF_LOG_FAILED, "the log has failed")                                     \
    X(SHELF_ALREADY_FAILED, "the member has already failed")                      \
    X(SHELF_LIMIT_REACHED, "as many members have failed as there are parities")   \
    X(SHELF_NOT_FAILED, "nothing has failed that this call mends")                \
    X(SHELF_LISTED, "blocks are listed")                                          \
    X(SHELF_WITHHELD, "a block is lost with the log")                             \
    X(SHELF_BLOCK_FAILED, "a block is on a failed member")

/* The name of a number, as "SHELF_BAD_LIST"; of one that no call answers, "". */
static inline const char *shelf_name(size_t code)
{
#define SHELF_NAME_CASE(name, text) \
    case name:                      \
        return #name;
    switch (code) {
        SHELF_EACH_NUMBER(SHELF_NAME_CASE)
    default:
        return "";
    }
#undef SHELF_NAME_CASE
}

/* A short text for a number, as "the list is damaged"; of one that no call answers, "". */
static inline const char *shelf_text(size_t code)
{
#define SHELF_TEXT_CASE(name, text) \
    case name:                      \
        return text;
    switch (code) {
        SHELF_EACH_NUMBER(SHELF_TEXT_CASE)
    default:
        return "";
    }
#undef SHELF_TEXT_CASE
}

#ifdef __cplusplus
}
#endif

#endif
