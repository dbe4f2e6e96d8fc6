/* The peer in plain C: parity and recovery row by row, a whole block at a time.
   It is compiled apart, by gcc -O3, and leaves all vector code to the compiler. It is compiled
   twice, ROWS the name of its calls: the doubling as this library writes it and, with BY_MASK, by
   shift and mask, which gcc 12 turns into vector code with less work. */
#include "bench.h"

#include <string.h>

/* 2 * v in the field of polynomial 11D. */
static inline uint8_t twice(uint8_t v)
{
#ifdef BY_MASK
    return (uint8_t)((v << 1) ^ (0x1D & -(v >> 7)));
#else
    return (uint8_t)((v % 128 * 2) ^ (v / 128 * 29));
#endif
}

static uint8_t powers[255], logarithms[256];

/* Fills the tables of the powers of 2 and of their logarithms, once. */
static void init(void)
{
    uint8_t v = 1;
    for (unsigned n = 0; n < 255; n++, v = twice(v)) {
        powers[n] = v;
        logarithms[v] = (uint8_t)n;
    }
}

/* The 256 products of c: those of the values with a bit are those below it plus the bit's own. */
static void fill_products(uint8_t c, uint8_t table[static 256])
{
    table[0] = 0;
    for (unsigned bit = 1; bit < 256; bit *= 2, c = twice(c))
        for (unsigned v = bit; v < 2 * bit; v++)
            table[v] = table[v - bit] ^ c;
}

/* to[j] ^= from[j] */
static void add_row(size_t b, uint8_t *restrict to, const uint8_t *restrict from)
{
    for (size_t j = 0; j < b; j++)
        to[j] ^= from[j];
}

/* One data block into P and Q by Horner's rule. */
static void step_row(size_t b, uint8_t *restrict p, uint8_t *restrict q, const uint8_t *restrict r)
{
    for (size_t j = 0; j < b; j++) {
        p[j] ^= r[j];
        q[j] = twice(q[j]) ^ r[j];
    }
}

/* q[j] = 2 * q[j], the step of a block of zeros. */
static void double_row(size_t b, uint8_t *q)
{
    for (size_t j = 0; j < b; j++)
        q[j] = twice(q[j]);
}

/* P and Q of one stripe, from the last data block to the first. */
static void parity(uint32_t d, size_t b, size_t stride, uint8_t *first)
{
    uint8_t *p = first + d * stride, *q = p + stride;
    memcpy(p, first + (d - 1) * stride, b);
    memcpy(q, first + (d - 1) * stride, b);
    for (uint32_t i = d - 1; i-- > 0;)
        step_row(b, p, q, first + i * stride);
}

/* P alone of one stripe. */
static void sum(uint32_t d, size_t b, uint8_t *stripe)
{
    uint8_t *p = stripe + d * b;
    memcpy(p, stripe, b);
    for (uint32_t i = 1; i < d; i++)
        add_row(b, p, stripe + i * b);
}

/* Data block x from P and the other data blocks. */
static void recover_one(uint32_t d, size_t b, uint32_t x, uint8_t *stripe)
{
    uint8_t *to = stripe + x * b;
    memcpy(to, stripe + d * b, b);
    for (uint32_t i = 0; i < d; i++)
        if (i != x)
            add_row(b, to, stripe + i * b);
}

/* The last rows of a recovery of two: rx and ry hold P and Q of the data blocks that are there,
   and get the missing ones, a * (P + rx) + c * (Q + ry) and that plus P + rx. */
static void solve_rows(size_t b, uint8_t a, uint8_t c, uint8_t *restrict rx, uint8_t *restrict ry,
                       const uint8_t *restrict p, const uint8_t *restrict q)
{
    uint8_t by_a[256], by_c[256];
    fill_products(a, by_a);
    fill_products(c, by_c);
    for (size_t j = 0; j < b; j++) {
        uint8_t left = p[j] ^ rx[j];
        rx[j] = by_a[left] ^ by_c[q[j] ^ ry[j]];
        ry[j] = rx[j] ^ left;
    }
}

/* P and Q of a stripe whose blocks stand anywhere: data, P, Q. */
static void parity_at(uint32_t d, size_t b, uint8_t *const *blocks)
{
    memcpy(blocks[d], blocks[d - 1], b);
    memcpy(blocks[d + 1], blocks[d - 1], b);
    for (uint32_t i = d - 1; i-- > 0;)
        step_row(b, blocks[d], blocks[d + 1], blocks[i]);
}

/* Data block x of such a stripe from P and the other data blocks. */
static void recover_at(uint32_t d, size_t b, uint32_t x, uint8_t *const *blocks)
{
    memcpy(blocks[x], blocks[d], b);
    for (uint32_t i = 0; i < d; i++)
        if (i != x)
            add_row(b, blocks[x], blocks[i]);
}

/* Data blocks x and y of such a stripe, x below y, from P, Q and the others; the product tables are filled in
   each call, since a call is told only the members. */
static void recover_two_at(uint32_t d, size_t b, uint32_t x, uint32_t y, uint8_t *const *blocks)
{
    memset(blocks[x], 0, b);
    memset(blocks[y], 0, b);
    for (uint32_t i = d; i-- > 0;) {
        if (i != x && i != y)
            step_row(b, blocks[x], blocks[y], blocks[i]);
        else
            double_row(b, blocks[y]);
    }
    /* With g for 2 to the power y - x: a is g / (g + 1), c is 2 to the power -x over g + 1. */
    unsigned under = logarithms[powers[y - x] ^ 1];
    solve_rows(b, powers[(y - x + 255 - under) % 255], powers[(510 - x - under) % 255], blocks[x], blocks[y], blocks[d],
               blocks[d + 1]);
}

/* The same of a stripe whose blocks stand one after another. */
static void recover_two(uint32_t d, size_t b, uint32_t x, uint32_t y, uint8_t *stripe)
{
    uint8_t *blocks[MOST_DATA + 2];
    for (uint32_t i = 0; i < d + 2; i++)
        blocks[i] = stripe + i * b;
    recover_two_at(d, b, x, y, blocks);
}

const struct rows ROWS = {init, parity, sum, recover_one, recover_two, parity_at, recover_at, recover_two_at};
