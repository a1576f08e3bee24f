/* A small seeded generator (splitmix64), the same on every machine. */
#ifndef RANDOM_H
#define RANDOM_H

#include <stdbool.h>
#include <stddef.h>
#include <stdint.h>

void random_start(uint64_t seed);
uint64_t random_next(void);
/* A number below `limit`, which isn't 0. */
uint32_t random_below(uint32_t limit);
/* A number from `low` to `high`, both included. */
uint32_t random_between(uint32_t low, uint32_t high);
/* True once in `times`, on the average. */
bool random_once_in(uint32_t times);
void random_fill(uint8_t *bytes, size_t count);

#endif
