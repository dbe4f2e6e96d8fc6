/* The measuring program of the benchmark: this library's calls against ISA-L, plain C rows and memcpy, those that
   change a list against one that only tests it, that one against a test in plain C, recovery with blocks listed
   against that with none, calls of the rotating layout against those of the fixed one, and those with one parity
   against those with two. It compares all results, then times all variants in one interleaved pass and writes the
   times to a file:
     bench PASS PASSES FILE
   The first two arguments are for what it says on standard error. */
#define _POSIX_C_SOURCE 200809L

#include "bench.h"

#include <stdio.h>
#include <stdlib.h>
#include <time.h>

#define SLICE_NS 1e6      /* the length of a slice */
#define MOST_SECONDS 60.0 /* no round begins later than this */
#define TELL_SECONDS 10.0 /* how often it says how long it has been at work */

/* The next number of a fixed sequence (splitmix64). */
uint64_t next_random(void)
{
    static uint64_t state = SEED;
    uint64_t z = (state += 0x9E3779B97F4A7C15u);
    z = (z ^ (z >> 30)) * 0xBF58476D1CE4E5B9u;
    z = (z ^ (z >> 27)) * 0x94D049BB133111EBu;
    return z ^ (z >> 31);
}

/* Nanoseconds on a clock that is never set back. */
static double now(void)
{
    struct timespec t;
    clock_gettime(CLOCK_MONOTONIC, &t);
    return (double)t.tv_sec * 1e9 + (double)t.tv_nsec;
}

/* Ends the program with an error. */
void fail(const struct job *job, const char *who, const char *what)
{
    fprintf(stderr, "benchmark: %s, d %u, B %u: %s: %s\n", work_names[job->work], job->d, job->b, who, what);
    exit(1);
}

/* A batch of calls on a job whose list each call finds as it was before; to set it back does not count. */
static double run_listed(call_of_job *call, const struct job *job, uint64_t calls)
{
    double spent = 0;
    for (uint64_t n = 0; n < calls; n++) {
        set_list(job);
        double from = now();
        call(job);
        spent += now() - from;
    }
    return spent;
}

/* A batch of calls of one variant. Answers what they took, in nanoseconds. */
double run_batch(enum variant v, const struct job *job, uint64_t calls)
{
    call_of_job *call = ways[v].call[job->work];
    if (job->list_before != NULL)
        return run_listed(call, job, calls);
    double from = now();
    for (uint64_t n = 0; n < calls; n++)
        call(job);
    return now() - from;
}

/* The time of a call in a batch, in nanoseconds. */
static double time_batch(enum variant v, const struct job *job, uint64_t calls)
{
    return run_batch(v, job, calls) / (double)calls;
}

/* How many calls of a variant fill a slice; at least one. */
static uint64_t calls_in_slice(enum variant v, const struct job *job)
{
    for (uint64_t calls = 1;; calls *= 2) {
        double least = time_batch(v, job, calls);
        for (unsigned n = 0; n < 2; n++) {
            double again = time_batch(v, job, calls);
            least = again < least ? again : least;
        }
        if (least * (double)calls > SLICE_NS / 4)
            return least < SLICE_NS ? (uint64_t)(SLICE_NS / least) : 1;
    }
}

/* Puts a job's bytes in its layout, and sets ISA-L up for it, where it is there. */
void turn_to(const struct job *job)
{
    lay_out(job);
#ifdef WITH_ISAL
    isal_prepare(job);
#endif
}

/* Finds the slices of a line's variants. */
static void plan(struct line *line)
{
    for (enum variant v = 0; v < VARIANTS; v++) {
        if (!takes_part(line, v))
            continue;
        struct job job = job_of(line, v);
        turn_to(&job);
        line->calls[v] = calls_in_slice(v, &job);
    }
}

/* The numbers below count in a random order. */
static void shuffle(unsigned *order, unsigned count)
{
    for (unsigned k = 0; k < count; k++) {
        unsigned other = (unsigned)(next_random() % (k + 1));
        order[k] = order[other];
        order[other] = k;
    }
}

/* Times a slice of each variant of a line. A batch that is not timed comes before each slice: wide
   vector code lowers the clock for most of a millisecond, and the caches hold what ran last, so
   that a slice would otherwise begin in the state of the variant before it. */
static void time_line(struct line *line, unsigned round)
{
    unsigned order[VARIANTS] = {0};
    shuffle(order, VARIANTS);
    for (unsigned k = 0; k < VARIANTS; k++) {
        enum variant v = (enum variant)order[k];
        if (!takes_part(line, v))
            continue;
        struct job job = job_of(line, v);
        turn_to(&job);
        run_batch(v, &job, line->calls[v]);
        line->times[v][round] = time_batch(v, &job, line->calls[v]);
    }
}

/* Times all lines once. Those of the same recovery from stale stripes, which are compared with each other, come in
   a random order: the first of them find less of what they work on in cache. */
static void time_round(unsigned round)
{
    enum { ALIKE = SLOT_COUNTS * COUNTS };
    unsigned order[ALIKE] = {0};
    for (unsigned n = 0; n < STALE_LINES; n++)
        time_line(&lines[n], round);
    for (unsigned from = STALE_LINES; from < TEST_LINES; from += ALIKE) {
        shuffle(order, ALIKE);
        for (unsigned k = 0; k < ALIKE; k++)
            time_line(&lines[from + order[k]], round);
    }
    for (unsigned n = TEST_LINES; n < LINES; n++)
        time_line(&lines[n], round);
}

/* Times all lines in every round, so that a slow state of the machine that lasts for seconds falls
   on a few rounds of every line and not on all rounds of a few. Says now and then how long the pass has
   been at work since its start. Answers how many rounds it made. */
static unsigned time_rounds(double start, const char *pass, const char *passes)
{
    double from = now(), told = from;
    unsigned round = 0;
    for (; round < MOST_ROUNDS && now() - from < MOST_SECONDS * 1e9; round++) {
        time_round(round);
        if (now() - told > TELL_SECONDS * 1e9) {
            told = now();
            fprintf(stderr, "benchmark: pass %s of %s, %.0f s\n", pass, passes, (told - start) / 1e9);
        }
    }
    return round;
}

/* Makes each variant's slice of a line once more, and compares the bytes before and after it. */
static void check_again(const struct line *line)
{
    compare(&line->job, "the last timed call");
    for (enum variant v = 0; v < VARIANTS; v++) {
        if (!takes_part(line, v))
            continue;
        struct job job = job_of(line, v);
        turn_to(&job);
        run_batch(v, &job, line->calls[v]);
        compare(&job, variant_names[v]);
    }
}

/* Checks everything, times everything, checks that calls as they were timed leave the right bytes. */
int main(int argc, char **argv)
{
    double start = now();
    if (argc != 4) {
        fprintf(stderr, "usage: bench PASS PASSES FILE\n");
        return 2;
    }
    fprintf(stderr, "benchmark: pass %s of %s: comparing all results\n", argv[1], argv[2]);
    plain_rows.init();
    mask_rows.init();
    make_lines();
    for (unsigned n = 0; n < LINES; n++)
        check(&lines[n]);
    for (unsigned n = 0; n < LINES; n++)
        plan(&lines[n]);
    unsigned rounds = time_rounds(start, argv[1], argv[2]);
    for (unsigned n = 0; n < LINES; n++)
        check_again(&lines[n]);
    write_pass(argv[3], rounds);
    fprintf(stderr, "benchmark: pass %s of %s: %u rounds, %.0f s in all\n", argv[1], argv[2], rounds, (now() - start) / 1e9);
    return 0;
}
