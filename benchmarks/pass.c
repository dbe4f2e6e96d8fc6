/* The file of a pass: what a call of each variant took on each line, for page and picture. */
#include "bench.h"

#include <stdio.h>
#include <stdlib.h>
#include <string.h>

/* What a call of a variant takes where nothing else runs on the processor: the time that a tenth of
   its rounds stay below, since other load only adds to it. */
static double clear_time(const struct line *line, enum variant v, unsigned rounds)
{
    double times[MOST_ROUNDS];
    memcpy(times, line->times[v], rounds * sizeof times[0]);
    sort(times, rounds);
    return times[rounds / 10];
}

/* The line of a work, an array and a pair of measures. */
static const struct line *line_of(enum work work, bool small, unsigned m)
{
    unsigned k = 0;
    while (small && laid_works[k] != work)
        k++;
    return small ? &lines[SMALL_LINES + k * MEASURES + m] : &lines[work * MEASURES + m];
}

/* The rebuild in the fixed layout that loses the roles of members x and y in stripe t of the rotating one. */
static enum work like_stripe(const struct job *turned, uint32_t t)
{
    uint32_t d = turned->d, lost[MOST_DATA + 2] = {0};
    for (uint32_t i = 0; i < d + 2; i++) {
        uint32_t member = member_of(turned, t, i);
        lost[i] = member == turned->x || member == turned->y;
    }
    if (turned->x == turned->y)
        return lost[d] || lost[d + 1] ? REBUILD_PARITY : REBUILD_ONE;
    if (lost[d] && lost[d + 1])
        return REBUILD_PARITY;
    return lost[d] ? REBUILD_WITH_P : lost[d + 1] ? REBUILD_WITH_Q : REBUILD_TWO;
}

/* What a rebuild in the rotating layout would take if each stripe took the time that one with the same
   roles lost takes in the fixed layout. */
static double mixed_time(const struct job *job, bool small, unsigned m, unsigned rounds)
{
    struct job turned = in_layout(job, SHELF_ROTATING);
    double times[WORKS] = {0}, sum = 0;
    for (enum work w = REBUILD_ONE; w <= REBUILD_WITH_Q; w++)
        if (w != FULL_RESYNC)
            times[w] = clear_time(line_of(w, small, m), OURS, rounds);
    for (uint32_t t = 0; t < job->s; t++)
        sum += times[like_stripe(&turned, t)] / job->s;
    return sum;
}

/* Writes a result. */
static void put_result(FILE *file, const struct job *job, enum variant v, double ns)
{
    fprintf(file, "%u %u %u %u %u %u %u %.4f\n", job->work, v, job->d, job->b, job->s, job->h, job->listed, ns);
}

/* Writes the results of a line. */
static void put_line(FILE *file, const struct line *line, unsigned rounds)
{
    for (enum variant v = 0; v < VARIANTS; v++)
        if (takes_part(line, v))
            put_result(file, &line->job, v, clear_time(line, v, rounds));
}

/* Writes what rebuilds in the rotating layout would take by the times of the fixed one. */
static void put_mixed(FILE *file, unsigned rounds)
{
    for (unsigned k = 0; k < 2 * 2 * MEASURES; k++) {
        unsigned m = k % MEASURES;
        bool small = k / MEASURES % 2 == 1;
        const struct job *job = &line_of(k < 2 * MEASURES ? REBUILD_ONE : REBUILD_TWO, small, m)->job;
        put_result(file, job, SAME_STRIPES, mixed_time(job, small, m, rounds));
    }
}

/* The widest vectors that the processor has. */
static const char *vectors(void)
{
#ifdef __x86_64__
    if (__builtin_cpu_supports("avx512bw") && __builtin_cpu_supports("avx512dq") && __builtin_cpu_supports("avx512vl"))
        return "AVX-512";
    if (__builtin_cpu_supports("avx2"))
        return "AVX2";
    if (__builtin_cpu_supports("avx"))
        return "AVX";
#endif
    return "SSE";
}

/* Writes the file of a pass of so many rounds. */
void write_pass(const char *path, unsigned rounds)
{
    FILE *file = fopen(path, "w");
    if (file == NULL) {
        fprintf(stderr, "benchmark: %s cannot be written\n", path);
        exit(1);
    }
    const char *isal = "-";
#ifdef WITH_ISAL
    isal = isal_version();
#endif
    fprintf(file, "rounds %u damaged %u isal %s vectors %s\n", rounds, damaged_lists, isal, vectors());
    for (unsigned n = 0; n < LINES; n++)
        put_line(file, &lines[n], rounds);
    put_mixed(file, rounds);
    if (fclose(file) != 0) {
        fprintf(stderr, "benchmark: %s cannot be written\n", path);
        exit(1);
    }
}
