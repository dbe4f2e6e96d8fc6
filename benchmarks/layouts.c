/* The layouts as C sees them: which member has which role in a stripe, the array of the rotating layout
   made from that of the fixed one, an array put in either of them, an array without Q, and a peer in plain C
   for both layouts: blocks copied by memcpy, sums by the C rows by mask. */
#include "bench.h"

#include <string.h>

/* The same job in a layout. */
struct job in_layout(const struct job *job, size_t layout)
{
    struct job other = *job;
    other.layout = other.record.geometry.layout = layout;
    return other;
}

/* The same job without Q. In the fixed layout that is the last member, so the array is shorter, and the rest
   of it the same. */
struct job without_q(const struct job *job)
{
    struct job other = *job;
    other.parities = 1;
    other.record.geometry.parities = 1;
    other.x = job->x < job->d ? job->x : job->d;
    other.y = job->y < job->d ? job->y : job->d;
    other.len = offset_of(job, job->d + 1, 0);
    return other;
}

/* The member that has a role in stripe t: 0 to d - 1 are the data indices, d is P, d + 1 is Q. In the
   rotating layout P goes down by a member a stripe, and Q and the data indices follow it round. */
uint32_t member_of(const struct job *job, uint32_t t, uint32_t role)
{
    uint32_t n = job->d + job->parities, behind_p = (role + job->parities) % n;
    return job->layout == SHELF_FIXED ? role : (n - 1 - t % n + behind_p) % n;
}

/* Where the block of a member in stripe t stands in an array, in bytes. */
size_t offset_of(const struct job *job, uint32_t member, uint32_t t)
{
    return ((size_t)member * job->s + t) * job->b;
}

/* Makes a job's bytes what they must be in its layout, Q too, if they are in the other one. */
void lay_out(const struct job *job)
{
    if (job->laid == NULL || *job->laid == job->layout)
        return;
    memcpy(job->bytes, job->sound[job->layout], offset_of(job, job->d + 2, 0));
    *job->laid = job->layout;
}

/* Makes what the bytes must be in the rotating layout: the blocks of the fixed one, each at its member. */
void turn_array(const struct job *job)
{
    struct job fixed = in_layout(job, SHELF_FIXED), turned = in_layout(job, SHELF_ROTATING);
    for (uint32_t t = 0; t < job->s; t++)
        for (uint32_t i = 0; i < job->d + 2; i++)
            memcpy(job->sound[SHELF_ROTATING] + offset_of(job, member_of(&turned, t, i), t),
                   job->sound[SHELF_FIXED] + offset_of(job, member_of(&fixed, t, i), t), job->b);
}

/* Where the blocks of stripe t are, data first, then P and Q: the members follow each other round. */
static void find_blocks(const struct job *job, uint32_t t, uint8_t *blocks[MOST_DATA + 2])
{
    uint32_t n = job->d + 2, member = member_of(job, t, 0);
    for (uint32_t i = 0; i < n; i++, member = member + 1 < n ? member + 1 : 0)
        blocks[i] = job->bytes + offset_of(job, member, t);
}

/* Writes all blocks and makes all parity. */
void c_write(const struct job *job)
{
    uint8_t *blocks[MOST_DATA + 2];
    const uint8_t *from = job->data;
    for (uint32_t t = 0; t < job->s; t++) {
        find_blocks(job, t, blocks);
        for (uint32_t i = 0; i < job->d; i++, from += job->b)
            memcpy(blocks[i], from, job->b);
        mask_rows.parity_at(job->d, job->b, blocks);
    }
}

/* Reads all blocks. */
void c_read(const struct job *job)
{
    uint8_t *blocks[MOST_DATA + 2], *to = job->copy;
    for (uint32_t t = 0; t < job->s; t++) {
        find_blocks(job, t, blocks);
        for (uint32_t i = 0; i < job->d; i++, to += job->b)
            memcpy(to, blocks[i], job->b);
    }
}

/* Fills member x: its data block, or P and Q where it has one of them. */
void c_rebuild(const struct job *job)
{
    uint8_t *blocks[MOST_DATA + 2];
    for (uint32_t t = 0; t < job->s; t++) {
        uint32_t role = (job->x + job->d + 2 - member_of(job, t, 0)) % (job->d + 2);
        find_blocks(job, t, blocks);
        if (role < job->d)
            mask_rows.recover_at(job->d, job->b, role, blocks);
        else
            mask_rows.parity_at(job->d, job->b, blocks);
    }
}

/* Fills data members x and y of the fixed layout. */
void c_rebuild_two(const struct job *job)
{
    uint8_t *blocks[MOST_DATA + 2];
    for (uint32_t t = 0; t < job->s; t++) {
        find_blocks(job, t, blocks);
        mask_rows.recover_two_at(job->d, job->b, job->x, job->y, blocks);
    }
}

/* Makes all parity. */
void c_full_resync(const struct job *job)
{
    uint8_t *blocks[MOST_DATA + 2];
    for (uint32_t t = 0; t < job->s; t++) {
        find_blocks(job, t, blocks);
        mask_rows.parity_at(job->d, job->b, blocks);
    }
}
