/* Faults put into an input on purpose, singly and together, so that the order of the refusals is seen. */
#ifndef FAULTS_H
#define FAULTS_H

#include <stdbool.h>
#include <stddef.h>
#include <stdint.h>

#include "lend.h"

/* A set of refusal numbers that an input gives cause for. */
typedef uint64_t faults;

static inline faults fault(uint8_t number) {
    return (faults)1 << number;
}

static inline bool has(faults set, uint8_t number) {
    return set >> number & 1;
}

/* Plans the first of the set, in the header's order for the call; 0 if the set is empty. */
void plan_first(enum call call, faults set);

/* Calls `one` with no fault, with each fault that the header lists for the call, with each pair of them, and with a few
 * larger sets; never with one of `without`. */
void with_each_fault_set(enum call call, faults without, void (*one)(faults set));

/* A length near `right` that isn't it, from 0 on; now and then one far above. */
size_t wrong_length(size_t right);
/* One below `right`, which isn't 0. */
size_t shorter_than(size_t right);
/* `right` or somewhat more. */
size_t enough(size_t right);
/* Shorter if the set has 19, for want of room, and otherwise enough. */
size_t enough_but_for(faults set, size_t right);
/* Either of them; enough if `right` is 0. */
size_t enough_or_not(size_t right);

/* For each byte of `bytes` and several values of it: calls `one`, and puts the byte back. */
void with_each_byte_damaged(uint8_t *bytes, size_t count, void (*one)(void));

#endif
