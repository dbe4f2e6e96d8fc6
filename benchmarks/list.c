/* The peers in plain C for the test of the list, a walk over all chains that marks each place it comes to in a
   bitmap and tests its words and a pass over the unused places, and for the logged write of a listed block. They are
   compiled apart, by gcc -O3. */
#include "bench.h"

#include <string.h>

enum { ADDRESS, ORI, CUR, NEXT, WORDS }; /* the words of a place */

/* A list, and what it is tested by. */
struct list {
    const uint8_t *heads, *places;
    uint32_t d, blocks, h, e; /* data blocks in a stripe and in all, slots, places */
    uint32_t next, listed;    /* the log's next free record, how many blocks are listed */
};

/* Word k from a byte on. The list's byte order is that of the processor. */
static inline uint32_t word(const uint8_t *from, size_t k)
{
    uint32_t w;
    memcpy(&w, from + k * sizeof w, sizeof w);
    return w;
}

/* Where a place begins. */
static inline const uint8_t *place_at(const struct list *l, uint32_t p)
{
    return l->places + (size_t)p * WORDS * sizeof(uint32_t);
}

/* Whether a word is none, which is one less than 0, or a record of the log that is in use. */
static inline bool is_record(uint32_t w, uint32_t next)
{
    return w + 1 <= next;
}

/* Whether all blocks of the stripe of address a, in place p, are listed. Addresses rise with the places,
   so that the first and the last of them have the others between them. */
static inline bool whole_stripe(const struct list *l, uint32_t p, uint32_t a)
{
    uint32_t i = a % l->d, last = l->d - 1;
    if (i > p || p - i + last >= l->listed)
        return false;
    const uint8_t *first = place_at(l, p - i);
    return word(first, ADDRESS) == a - i && word(first, (size_t)last * WORDS + ADDRESS) == a - i + last;
}

/* Whether the address of place p is above that of the place before it, and its words are good. */
static inline bool good_place(const struct list *l, uint32_t p)
{
    const uint8_t *place = place_at(l, p);
    uint32_t a = word(place, ADDRESS), ori = word(place, ORI), cur = word(place, CUR);
    if (a >= l->blocks || !is_record(ori, l->next) || !is_record(cur, l->next))
        return false;
    if (p > 0 && word(place_at(l, p - 1), ADDRESS) >= a)
        return false;
    return ori != SHELF_NONE || (cur != SHELF_NONE && whole_stripe(l, p, a));
}

/* Whether the chains come to each of the first places once, as many as blocks are listed, and to no
   other; all of these are good, and each chain has blocks of its slot in rising address. */
static bool good_chains(const struct list *l)
{
    uint64_t seen[SHELF_MAX_PLACES / 64] = {0};
    uint32_t count = 0;
    for (uint32_t slot = 0; slot < l->h; slot++) {
        uint32_t lowest = 0; /* that the chain's next address may be */
        for (uint32_t p = word(l->heads, slot); p != SHELF_NONE; count++) {
            uint64_t bit = (uint64_t)1 << p % 64;
            if (p >= l->listed || (seen[p / 64] & bit) != 0)
                return false;
            seen[p / 64] |= bit;
            uint32_t a = word(place_at(l, p), ADDRESS);
            if (a < lowest || a % l->h != slot || !good_place(l, p))
                return false;
            lowest = a + 1;
            p = word(place_at(l, p), NEXT);
        }
    }
    return count == l->listed;
}

/* Whether every word of the other places is none. */
static bool others_unused(const struct list *l)
{
    const uint8_t *others = place_at(l, l->listed);
    size_t words = (size_t)(l->e - l->listed) * WORDS;
    uint32_t all = SHELF_NONE;
    for (size_t k = 0; k < words; k++)
        all &= word(others, k);
    return all == SHELF_NONE;
}

/* A job's list. */
static struct list list_of(const struct job *job)
{
    const struct shelf_geometry *g = &job->record.geometry;
    struct list l = {.heads = job->list, .places = job->list + 4 * g->h};
    l.d = (uint32_t)g->d;
    l.blocks = (uint32_t)(g->d * g->s);
    l.h = (uint32_t)g->h;
    l.e = (uint32_t)g->e;
    l.next = (uint32_t)job->record.next;
    l.listed = (uint32_t)job->record.listed;
    return l;
}

/* Whether a job's list passes. */
bool list_passes(const struct job *job)
{
    struct list l = list_of(job);
    return good_chains(&l) && others_unused(&l);
}

/* Tests a job's list, which must pass. */
void c_test(const struct job *job)
{
    if (!list_passes(job))
        fail(job, variant_names[C_LIST_TEST], "a sound list did not pass");
}

/* Writes a job's listed block: tests the list, finds the block by its chain, and puts it in the next record of the
   log, which becomes its Cur, and on its disk. */
void c_log(const struct job *job)
{
    c_test(job);
    struct list l = list_of(job);
    const uint8_t *from = job->data + job->address * job->b;
    uint32_t p = word(l.heads, job->address % l.h);
    while (word(place_at(&l, p), ADDRESS) != job->address)
        p = word(place_at(&l, p), NEXT);
    memcpy(job->log + (size_t)l.next * job->b, from, job->b);
    memcpy(job->list + (place_at(&l, p) - l.heads) + CUR * sizeof l.next, &l.next, sizeof l.next);
    memcpy(block_at(job, job->address), from, job->b);
}
