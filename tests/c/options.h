/* The words that both drivers are started with: (--short | --long) [--seed N] [--broken WHAT]. */
#ifndef OPTIONS_H
#define OPTIONS_H

#include <stdbool.h>
#include <stdint.h>

struct options {
    const char *size; /* "--short" or "--long" */
    bool is_long;
    uint64_t seed; /* 1 if the words give none */
    const char *broken; /* what is broken on purpose: "" for nothing */
};

/* Answers whether the words are of that form. What can be broken is for the driver to say. */
bool read_options(struct options *options, int count, char **words);

#endif
