/* Two pieces of work against each other. */
#ifndef TIMING_H
#define TIMING_H

struct work {
    void (*once)(void *with);
    void *with;
};

struct comparison {
    double seconds; /* the least time of the first for one call */
    double ratio;  /* the least time of the first for one call, over the least time of the second */
    double spread; /* how far the median lies above the least time, as their ratio: the larger of both sides' */
};

struct comparison compare(struct work first, struct work second);

/* Of the processor, as fast as it runs now. Means something only where nothing is emulated. */
double cycles_a_second(void);

#endif
