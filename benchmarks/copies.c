/* Blocks copied by memcpy: alone the limit of what a call can reach, and a part of the peers' work. */
#include "bench.h"

#include <string.h>

/* Where the block with an address stands in the array. */
uint8_t *block_at(const struct job *job, size_t address)
{
    uint32_t t = (uint32_t)(address / job->d);
    return job->bytes + offset_of(job, member_of(job, t, (uint32_t)(address % job->d)), t);
}

/* Puts the data blocks of stripe t in the array of the fixed layout. */
void put_stripe(const struct job *job, uint32_t t)
{
    size_t b = job->b, first = (size_t)t * job->d;
    for (uint32_t i = 0; i < job->d; i++)
        memcpy(job->bytes + ((size_t)i * job->s + t) * b, job->data + (first + i) * b, b);
}

/* Copies the data members of the fixed layout as they stand. */
void copy_data(const struct job *job)
{
    memcpy(job->copy, job->bytes, (size_t)job->d * job->s * job->b);
}

/* Copies the data blocks of the fixed layout one by one, in the order of their addresses. */
void copy_blocks(const struct job *job)
{
    size_t b = job->b;
    uint8_t *to = job->copy;
    for (uint32_t t = 0; t < job->s; t++)
        for (uint32_t i = 0; i < job->d; i++, to += b)
            memcpy(to, job->bytes + ((size_t)i * job->s + t) * b, b);
}
