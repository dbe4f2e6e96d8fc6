/* The test of the tests of the list: each must let a line's list pass, and refuse it with one fault in it. */
#include "bench.h"

#include <string.h>

enum { ADDRESS, ORI, CUR, NEXT, WORDS }; /* the words of a place */

unsigned damaged_lists;

/* Where word k of place p stands in a job's list, counted in words. */
static size_t at(const struct job *job, size_t p, unsigned k)
{
    return job->h + p * WORDS + k;
}

/* Word n of a job's list. */
static uint32_t get(const struct job *job, size_t n)
{
    uint32_t w;
    memcpy(&w, job->list + n * sizeof w, sizeof w);
    return w;
}

/* Makes w word n of a job's list. */
static void put(const struct job *job, size_t n, uint32_t w)
{
    memcpy(job->list + n * sizeof w, &w, sizeof w);
}

/* Exchanges two words of a job's list. */
static void exchange(const struct job *job, size_t m, size_t n)
{
    uint32_t w = get(job, m);
    put(job, m, get(job, n));
    put(job, n, w);
}

/* The first slot whose chain has so many places, one or two; H where none has. */
static uint32_t slot_with(const struct job *job, unsigned places)
{
    uint32_t slot = 0;
    for (; slot < job->h; slot++) {
        uint32_t head = get(job, slot);
        if (head != SHELF_NONE && (places == 1 || get(job, at(job, head, NEXT)) != SHELF_NONE))
            break;
    }
    return slot;
}

/* Where the word stands that ends the first chain, which in an empty list is that of slot 0. */
static size_t end_of_chain(const struct job *job)
{
    size_t n = slot_with(job, 1) % job->h;
    while (get(job, n) != SHELF_NONE)
        n = at(job, get(job, n), NEXT);
    return n;
}

/* The faults. Each is put into a job's list; false where it cannot be in this one. */

/* Two neighbours in each other's places, which the chains still come to in rising address. */
static bool swap_places(const struct job *job)
{
    uint32_t p = job->listed / 2;
    for (unsigned k = 0; k < WORDS; k++)
        exchange(job, at(job, p, k), at(job, p + 1, k));
    for (size_t k = 0; k < job->h + (size_t)job->listed; k++) {
        size_t n = k < job->h ? k : at(job, k - job->h, NEXT);
        uint32_t to = get(job, n);
        if (to == p || to == p + 1)
            put(job, n, 2 * p + 1 - to);
    }
    return true;
}

/* A chain that comes to its second place before its first one. */
static bool let_chain_fall(const struct job *job)
{
    uint32_t slot = slot_with(job, 2);
    if (slot == job->h)
        return false;
    uint32_t first = get(job, slot), second = get(job, at(job, first, NEXT));
    put(job, slot, second);
    put(job, at(job, first, NEXT), get(job, at(job, second, NEXT)));
    put(job, at(job, second, NEXT), first);
    return true;
}

/* A word of the first unused place. */
static bool fill_first_unused(const struct job *job)
{
    if (job->listed == PLACES)
        return false;
    put(job, at(job, job->listed, ADDRESS), 0);
    return true;
}

/* A word of the last unused place. */
static bool fill_last_unused(const struct job *job)
{
    if (job->listed == PLACES)
        return false;
    put(job, at(job, PLACES - 1, NEXT), 0);
    return true;
}

/* A chain that comes back to its first place. */
static bool close_chain(const struct job *job)
{
    put(job, end_of_chain(job), get(job, slot_with(job, 1)));
    return true;
}

/* A chain that leaves the list. */
static bool leave_list(const struct job *job)
{
    put(job, end_of_chain(job), PLACES);
    return true;
}

/* A place that no chain comes to. */
static bool cut_chain(const struct job *job)
{
    uint32_t slot = slot_with(job, 1);
    put(job, slot, get(job, at(job, get(job, slot), NEXT)));
    return true;
}

/* Two slots with each other's chains. */
static bool swap_slots(const struct job *job)
{
    uint32_t slot = slot_with(job, 1);
    if (job->h == 1)
        return false;
    exchange(job, slot, slot == 0 ? 1 : slot - 1);
    return true;
}

/* The same address twice. */
static bool repeat_address(const struct job *job)
{
    put(job, at(job, 1, ADDRESS), get(job, at(job, 0, ADDRESS)));
    return true;
}

/* An address too high by d * S, which every H that is used divides. */
static bool raise_address(const struct job *job)
{
    size_t n = at(job, job->listed - 1, ADDRESS);
    put(job, n, get(job, n) + job->d * job->s);
    return true;
}

/* An Ori that is the next free record. */
static bool raise_ori(const struct job *job)
{
    put(job, at(job, 0, ORI), (uint32_t)job->record.next);
    return true;
}

/* A Cur that is the next free record. */
static bool raise_cur(const struct job *job)
{
    put(job, at(job, 0, CUR), (uint32_t)job->record.next);
    return true;
}

/* Neither Ori nor Cur. */
static bool clear_both(const struct job *job)
{
    put(job, at(job, 0, ORI), SHELF_NONE);
    put(job, at(job, 0, CUR), SHELF_NONE);
    return true;
}

/* No Ori in a stripe of which blocks are not listed: one where a block has both Ori and Cur. */
static bool clear_ori(const struct job *job)
{
    for (uint32_t p = 0; p < job->listed; p++)
        if (get(job, at(job, p, ORI)) != SHELF_NONE && get(job, at(job, p, CUR)) != SHELF_NONE) {
            put(job, at(job, p, ORI), SHELF_NONE);
            return true;
        }
    return false;
}

enum { FAULTS = 14, EMPTY_FAULTS = 3 }; /* the first of them can be in an empty list */
static bool (*const faults[FAULTS])(const struct job *) = {
    fill_first_unused, fill_last_unused, leave_list,    swap_places, let_chain_fall, close_chain, cut_chain,
    swap_slots,        repeat_address,   raise_address, raise_ori,   raise_cur,      clear_both,  clear_ori,
};

/* Holds the tests of the list to a job's list, which both let pass, and to its damaged ones, which both
   refuse. */
void check_tests(const struct job *job)
{
    uint8_t good[MOST_LIST];
    memcpy(good, job->list, list_len(job));
    ours_test(job);
    c_test(job);
    for (unsigned k = 0; k < (job->listed == 0 ? EMPTY_FAULTS : FAULTS); k++) {
        if (!faults[k](job))
            continue;
        if (list_passes(job))
            fail(job, variant_names[C_LIST_TEST], "a damaged list passed");
        if (ours_passes(job))
            fail(job, variant_names[OURS], "a damaged list passed");
        damaged_lists++;
        memcpy(job->list, good, list_len(job));
    }
}
