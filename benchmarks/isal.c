/* The peer ISA-L: pq_gen, xor_gen, and ec_encode_data over tables that are built before the timing.
   The results go where the other variants put theirs. Each call is there twice, by the code that
   ISA-L chooses for the processor, followed by a vzeroupper, and by that for SSE. */
#include "bench.h"

#include <isa-l.h>
#include <string.h>

#define TEXT_OF(v) #v
#define TEXT(v) TEXT_OF(v)

/* The blocks of the job's first stripe. */
struct places {
    void *members[MOST_DATA + 2];     /* pq_gen: data, P, Q */
    uint8_t *sources[MOST_DATA + 1];  /* xor_gen and ec_encode_data: what is there; then the target */
    uint8_t *targets[2];              /* ec_encode_data: what is made */
};

static struct places at;
static uint8_t coefficients[2 * MOST_DATA];   /* a row for each target */
static uint8_t tables[32 * 2 * MOST_DATA];    /* what ec_encode_data reads for them */
static int target_count;

/* The version of the headers, as text. */
const char *isal_version(void)
{
    return TEXT(ISAL_MAJOR_VERSION) "." TEXT(ISAL_MINOR_VERSION) "." TEXT(ISAL_PATCH_VERSION);
}

/* 2 to the power n in the field. */
static uint8_t power(uint32_t n)
{
    uint8_t v = 1;
    while (n-- > 0)
        v = gf_mul(v, 2);
    return v;
}

/* Parity from all data: a row of ones, and a row of the weights. */
static void prepare_parity(const struct job *job)
{
    for (uint32_t i = 0; i < job->d; i++) {
        at.sources[i] = at.members[i];
        coefficients[i] = 1;
        coefficients[job->d + i] = power(i);
    }
    target_count = 2;
}

/* One data block from the others and P, or P from all data: a row of ones. */
static void prepare_one(const struct job *job)
{
    uint32_t k = 0;
    for (uint32_t i = 0; i <= job->d; i++) {
        if (i == job->x)
            continue;
        at.sources[k] = at.members[i];
        coefficients[k++] = 1;
    }
    at.sources[k] = at.targets[0];
    target_count = 1;
}

/* Two data blocks from the others, P and Q. With g for 2 to the power y - x, a for g / (g + 1) and
   c for 2 to the power -x over g + 1, and P', Q' the sums of P, Q and the others' parts of them:
   block x is a * P' + c * Q', and block y is P' plus block x. A fetch makes x alone. */
static void prepare_two(const struct job *job)
{
    uint32_t d = job->d, k = 0;
    uint8_t g = power(job->y - job->x), under = gf_inv(g ^ 1);
    uint8_t a = gf_mul(g, under), c = gf_mul(gf_inv(power(job->x)), under);
    for (uint32_t i = 0; i < d + 2; i++) {
        if (i == job->x || i == job->y)
            continue;
        uint8_t in_p = i <= d, in_q = i < d ? power(i) : i == d + 1;
        uint8_t to_x = (uint8_t)(gf_mul(a, in_p) ^ gf_mul(c, in_q));
        at.sources[k] = at.members[i];
        coefficients[k] = to_x;
        coefficients[d + k++] = to_x ^ in_p;
    }
    target_count = job->work == FETCH_TWO ? 1 : 2;
}

/* Sets the pointers and builds the tables for a job. */
void isal_prepare(const struct job *job)
{
    bool fetches = job->work == FETCH_ONE || job->work == FETCH_TWO;
    for (uint32_t i = 0; i < job->d + job->parities; i++)
        at.members[i] = job->bytes + (size_t)i * job->s * job->b;
    at.targets[0] = fetches ? job->copy : at.members[job->x];
    at.targets[1] = at.members[job->y];
    if (job->x == job->y)
        prepare_one(job);
    else if (job->x < job->d)
        prepare_two(job);
    else
        prepare_parity(job);
    ec_init_tables((int)job->d, target_count, coefficients, tables);
}

/* Goes to the blocks of the next stripe. */
static void advance(struct places *to, const struct job *job)
{
    for (uint32_t i = 0; i < job->d + job->parities; i++)
        to->members[i] = (uint8_t *)to->members[i] + job->b;
    for (uint32_t i = 0; i < job->d + 1; i++)
        to->sources[i] += job->b;
    to->targets[0] += job->b;
    to->targets[1] += job->b;
}

/* Clears the upper halves of the vector registers, which ISA-L's AVX code leaves in use: SSE code after it, the
   archives' and the C rows', would take twice as long or more. It follows each call of code that may be wide,
   within the time that counts as ISA-L's. */
static inline void clear_upper_halves(void)
{
#ifdef __x86_64__
    if (__builtin_cpu_supports("avx"))
        __asm__ volatile("vzeroupper" ::: "memory");
#endif
}

/* pq_gen by the code that ISA-L chooses for the processor. */
static inline void chosen_pq(int members, int len, void **blocks)
{
    pq_gen(members, len, blocks);
    clear_upper_halves();
}

/* The same of xor_gen. */
static inline void chosen_xor(int members, int len, void **blocks)
{
    xor_gen(members, len, blocks);
    clear_upper_halves();
}

/* The same of ec_encode_data. */
static inline void chosen_encode(int len, int sources, int targets, uint8_t *by, uint8_t **from, uint8_t **to)
{
    ec_encode_data(len, sources, targets, by, from, to);
    clear_upper_halves();
}

/* The calls of a set of ISA-L's functions: P and Q of one stripe; one data block as the xor of the
   others and P; the targets of the job, P and Q or the missing blocks, by the prepared tables; each
   of them in every stripe of an array kept by member, stripe by stripe; and each stripe's data put
   in the array before its P and Q are made. */
#define CALLS_OF(set, pq, xor, encode)                                                             \
    void set##_pq(const struct job *job)                                                           \
    {                                                                                              \
        pq((int)job->d + 2, (int)job->b, at.members);                                              \
    }                                                                                              \
    void set##_xor(const struct job *job)                                                          \
    {                                                                                              \
        xor((int)job->d + 1, (int)job->b, (void **)at.sources);                                    \
    }                                                                                              \
    void set##_encode(const struct job *job)                                                       \
    {                                                                                              \
        encode((int)job->b, (int)job->d, target_count, tables, at.sources, at.targets);            \
    }                                                                                              \
    void set##_pq_all(const struct job *job)                                                       \
    {                                                                                              \
        struct places now = at;                                                                    \
        for (uint32_t t = 0; t < job->s; t++, advance(&now, job))                                  \
            pq((int)job->d + 2, (int)job->b, now.members);                                         \
    }                                                                                              \
    void set##_xor_all(const struct job *job)                                                      \
    {                                                                                              \
        struct places now = at;                                                                    \
        for (uint32_t t = 0; t < job->s; t++, advance(&now, job))                                  \
            xor((int)job->d + 1, (int)job->b, (void **)now.sources);                               \
    }                                                                                              \
    void set##_encode_all(const struct job *job)                                                   \
    {                                                                                              \
        struct places now = at;                                                                    \
        for (uint32_t t = 0; t < job->s; t++, advance(&now, job))                                  \
            encode((int)job->b, (int)job->d, target_count, tables, now.sources, now.targets);      \
    }                                                                                              \
    void set##_write(const struct job *job)                                                        \
    {                                                                                              \
        struct places now = at;                                                                    \
        for (uint32_t t = 0; t < job->s; t++, advance(&now, job)) {                                \
            put_stripe(job, t);                                                                    \
            pq((int)job->d + 2, (int)job->b, now.members);                                         \
        }                                                                                          \
    }

CALLS_OF(isal, chosen_pq, chosen_xor, chosen_encode)
CALLS_OF(isal_sse, pq_gen_sse, xor_gen_sse, ec_encode_data_sse)
