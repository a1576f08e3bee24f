#include "random.h"

static uint64_t state;

void random_start(uint64_t seed) {
    state = seed;
}

uint64_t random_next(void) {
    state += 0x9E3779B97F4A7C15u;
    uint64_t mixed = state;
    mixed = (mixed ^ (mixed >> 30)) * 0xBF58476D1CE4E5B9u;
    mixed = (mixed ^ (mixed >> 27)) * 0x94D049BB133111EBu;
    return mixed ^ (mixed >> 31);
}

uint32_t random_below(uint32_t limit) {
    return (uint32_t)((random_next() >> 32) * limit >> 32);
}

uint32_t random_between(uint32_t low, uint32_t high) {
    return low + random_below(high - low + 1);
}

bool random_once_in(uint32_t times) {
    return random_below(times) == 0;
}

void random_fill(uint8_t *bytes, size_t count) {
    for (size_t i = 0; i < count; i++) bytes[i] = (uint8_t)random_next();
}
