/* stripe.h: the parity of one stripe, made and recovered: P and Q (RAID-6), or P alone. Link with libstripe.a.
 *
 * A stripe has d data blocks and one or two parities, all of b bytes. It is one buffer of (d + parities) * b bytes, at
 * any alignment, that holds the members in the order of their numbers:
 *
 *     member          offset          bytes   with parities
 *     0       data 0  0               b       2, 1
 *     1       data 1  b               b       2, 1
 *     ..
 *     d - 1   data    (d - 1) * b     b       2, 1
 *     d       P       d * b           b       2, 1
 *     d + 1   Q       (d + 1) * b     b       2
 *
 * Byte j of P is the exclusive or of byte j of all data blocks. Byte j of Q is the sum, over the data blocks i, of 2 to
 * the power i times byte j of block i, in the field of 256 elements with polynomial 0x11D, where a sum is an exclusive
 * or. This is the parity of H. P. Anvin, "The mathematics of RAID-6". P is the same with either count.
 *
 * Both calls take any arguments and any length. They answer 0, or they refuse with the first of 1, 2, 6 and 11 that
 * applies; a refusal stores nothing. There is no state and no allocation. Calls may
 * run at the same time, in any number of threads, as long as their buffers do not overlap.
 */
#ifndef KUMIROVE_STRIPE_H
#define KUMIROVE_STRIPE_H

#include <stddef.h>
#include <stdint.h>

#ifdef __cplusplus
extern "C" {
#endif

/* The version, which rises with each change that a caller can see; docs/MANUAL.md of the source lists them. */
#define STRIPE_VERSION 8

/* The ranges of d, parities and b. */
#define STRIPE_MIN_DATA 2
#define STRIPE_MAX_DATA 16
#define STRIPE_MIN_PARITIES 1
#define STRIPE_MAX_PARITIES 2
#define STRIPE_MIN_BLOCK 1
#define STRIPE_MAX_BLOCK 4096

/* The numbers answered, in the order in which they are tried; STRIPE_OK where no other applies. */
#define STRIPE_BAD_MEASURES 1 /* d is not 2 to 16, parities not 1 or 2, or b not 1 to 4096 */
#define STRIPE_BAD_LENGTH 2   /* len is not (d + parities) * b */
#define STRIPE_BAD_MEMBER 6   /* x or y is not below d + parities (stripe_recover only) */
#define STRIPE_TWO_MISSING 11 /* x and y differ, and there is one parity (stripe_recover only) */
#define STRIPE_OK 0

/* A number that is not looked at is warned of. */
#ifdef __GNUC__
#define STRIPE_ANSWER __attribute__((warn_unused_result))
#else
#define STRIPE_ANSWER
#endif

/* Makes the parities of the data.
 *
 *   d         how many data blocks the stripe has, 2 to 16
 *   parities  2: P and Q; 1: P
 *   b         how many bytes a block has, 1 to 4096
 *   stripe    the buffer, not NULL; P and Q may hold anything
 *   len       how many bytes the buffer has, (d + parities) * b
 *
 * Answers 0, 1 or 2. With 0, P and, with two parities, Q are stored and the data is as it was; with 1 or 2, nothing is
 * stored.
 */
STRIPE_ANSWER uint32_t stripe_make_parity(uint32_t d, uint32_t parities, uint32_t b, uint8_t *stripe, size_t len);

/* Recovers missing members from the others: one, or with two parities one or two.
 *
 *   d         how many data blocks the stripe has, 2 to 16
 *   parities  2: P and Q; 1: P
 *   b         how many bytes a block has, 1 to 4096
 *   x, y      the missing members, below d + parities each, in either order; the same number twice names one missing
 *             member
 *   stripe    the buffer, not NULL; the missing members may hold anything
 *   len       how many bytes the buffer has, (d + parities) * b
 *
 * Answers 0, 1, 2, 6 or 11. With 0, the missing members are stored and all others are as they were; else nothing is
 * stored. What is stored, by what is missing:
 *
 *   a data block            it, from P
 *   a data block and Q      the data from P, then Q from the data
 *   a data block and P      the data from Q, then P from the data
 *   two data blocks         both, from P and Q
 *   P, Q or both            each from the data
 *
 * The members that are there are taken as they are: the call does not test whether they agree with each other. If they
 * are those of a stripe that stripe_make_parity made, the buffer is that stripe again.
 */
STRIPE_ANSWER uint32_t stripe_recover(uint32_t d, uint32_t parities, uint32_t b, uint32_t x, uint32_t y,
                                      uint8_t *stripe, size_t len);

/* How many bytes the buffer of a stripe has; 0 for numbers out of their ranges. */
static inline size_t stripe_len(uint32_t d, uint32_t parities, uint32_t b)
{
    if (d < STRIPE_MIN_DATA || d > STRIPE_MAX_DATA || parities < STRIPE_MIN_PARITIES ||
        parities > STRIPE_MAX_PARITIES || b < STRIPE_MIN_BLOCK || b > STRIPE_MAX_BLOCK)
        return 0;
    return (size_t)(d + parities) * b;
}

/* The numbers with a short text each. */
#define STRIPE_EACH_NUMBER(X)                                        \
    X(STRIPE_OK, "accepted")                                         \
    X(STRIPE_BAD_MEASURES, "d, parities or b is out of its range")   \
    X(STRIPE_BAD_LENGTH, "the buffer has not the stripe's length")   \
    X(STRIPE_BAD_MEMBER, "no such member")                           \
    X(STRIPE_TWO_MISSING, "two members are missing, with one parity")

/* The name of a number, as "STRIPE_BAD_MEMBER"; of one that no call answers, "". */
static inline const char *stripe_name(uint32_t code)
{
#define STRIPE_NAME_CASE(name, text) \
    case name:                       \
        return #name;
    switch (code) {
        STRIPE_EACH_NUMBER(STRIPE_NAME_CASE)
    default:
        return "";
    }
#undef STRIPE_NAME_CASE
}

/* A short text for a number, as "no such member"; of one that no call answers, "". */
static inline const char *stripe_text(uint32_t code)
{
#define STRIPE_TEXT_CASE(name, text) \
    case name:                       \
        return text;
    switch (code) {
        STRIPE_EACH_NUMBER(STRIPE_TEXT_CASE)
    default:
        return "";
    }
#undef STRIPE_TEXT_CASE
}

#ifdef __cplusplus
}
#endif

#endif
