#define _POSIX_C_SOURCE 200809L
#include "timing.h"

#include <stdint.h>
#include <stdlib.h>
#include <time.h>

/* A sample is long against the clock's own cost, and short enough for many of them. */
static const double SAMPLE_SECONDS = 0.0005;
static const double FIGURE_SECONDS = 0.2;

enum { FEWEST_SAMPLES = 9, MOST_SAMPLES = 400 };

struct side {
    struct work work;
    long calls; /* in a sample */
    double samples[MOST_SAMPLES];
};

/*
 * The thread's own time, which only goes forward, and stands still while others have the processor. By the wall's clock, a
 * work longer than a turn of the scheduler is slower on a busy machine at every repeat, so that even the least misleads.
 */
static double now(void)
{
    struct timespec time;
    clock_gettime(CLOCK_THREAD_CPUTIME_ID, &time);
    return (double)time.tv_sec + (double)time.tv_nsec * 1e-9;
}

static double sample(const struct side *side)
{
    double start = now();
    for (long call = 0; call < side->calls; call++)
        side->work.once(side->work.with);
    return now() - start;
}

/* Doubles the calls until a sample is long enough, which warms caches and emulator too. Answers the sample's seconds. */
static double calibrate(struct side *side)
{
    double seconds;
    side->calls = 1;
    sample(side);
    while ((seconds = sample(side)) < SAMPLE_SECONDS)
        side->calls *= 2;
    return seconds;
}

static int samples_for(double seconds)
{
    double fitting = FIGURE_SECONDS / seconds;
    if (fitting < FEWEST_SAMPLES)
        return FEWEST_SAMPLES;
    return fitting > MOST_SAMPLES ? MOST_SAMPLES : (int)fitting;
}

static int by_size(const void *left, const void *right)
{
    double l = *(const double *)left, r = *(const double *)right;
    return (l > r) - (l < r);
}

static double larger(double left, double right) { return left > right ? left : right; }

static double spread(const struct side *side, int count) { return side->samples[count / 2] / side->samples[0]; }

/* The sides take turns, so that whatever slows the machine down for a while falls on both. */
struct comparison compare(struct work first, struct work second)
{
    static struct side one, other;
    one.work = first;
    other.work = second;
    double seconds = larger(calibrate(&one), calibrate(&other));
    int count = samples_for(seconds);
    for (int at = 0; at < count; at++) {
        one.samples[at] = sample(&one);
        other.samples[at] = sample(&other);
    }
    qsort(one.samples, (size_t)count, sizeof one.samples[0], by_size);
    qsort(other.samples, (size_t)count, sizeof other.samples[0], by_size);
    double least = one.samples[0] / (double)one.calls;
    return (struct comparison){
        .seconds = least,
        .ratio = least / (other.samples[0] / (double)other.calls),
        .spread = larger(spread(&one, count), spread(&other, count)),
    };
}

enum { CHAIN = 10000, CYCLES_A_MULTIPLICATION = 3 };

/* Each waits for the one before it, for as many cycles on every x86-64 processor of the last years. What counts the
 * turns is done meanwhile. */
static void multiply(void *nothing)
{
    uint64_t x = 3;
    (void)nothing;
    for (int done = 0; done < CHAIN; done++)
        __asm__ volatile("imul %0, %0" : "+r"(x));
}

/* A clock that ticks evenly would not tell: processors go faster and slower than it. */
double cycles_a_second(void)
{
    const struct work chain = { multiply, NULL };
    return CHAIN * CYCLES_A_MULTIPLICATION / compare(chain, chain).seconds;
}
