#include "faults.h"

#include "random.h"

/* A fault that others go before is seen only alone, so it comes alone more than once. */
enum { ALONE = 4 };

void plan_first(enum call call, faults set) {
    const uint8_t *number = listed_refusals[call];
    while (*number != 0 && !has(set, *number)) number++;
    plan_number(*number);
}

static faults random_set(enum call call) {
    faults set = 0;
    for (const uint8_t *number = listed_refusals[call]; *number != 0; number++) {
        if (random_once_in(3)) set |= fault(*number);
    }
    return set;
}

void with_each_fault_set(enum call call, faults without, void (*one)(faults set)) {
    const uint8_t *listed = listed_refusals[call];
    one(0);
    for (int i = 0; listed[i] != 0; i++) {
        if (has(without, listed[i])) continue;
        for (int times = 0; times < ALONE; times++) one(fault(listed[i]));
        for (int j = i + 1; listed[j] != 0; j++) {
            if (!has(without, listed[j])) one(fault(listed[i]) | fault(listed[j]));
        }
        one(random_set(call) & ~without);
    }
}

size_t wrong_length(size_t right) {
    if (random_once_in(16)) return right + random_between(1, 300);
    size_t length = random_below((uint32_t)right + 2);
    return length >= right ? length + 1 : length;
}

size_t shorter_than(size_t right) {
    return random_once_in(2) ? right - 1 : random_below((uint32_t)right);
}

size_t enough(size_t right) {
    return right + (random_once_in(2) ? 0 : random_between(1, 20));
}

size_t enough_but_for(faults set, size_t right) {
    return has(set, 19) ? shorter_than(right) : enough(right);
}

size_t enough_or_not(size_t right) {
    return right > 0 && random_once_in(4) ? shorter_than(right) : enough(right);
}

void with_each_byte_damaged(uint8_t *bytes, size_t count, void (*one)(void)) {
    for (size_t i = 0; i < count; i++) {
        uint8_t right = bytes[i];
        const uint8_t values[] = {right ^ 1, right ^ 0x80, right + 1, right - 1, 0, 255, (uint8_t)random_next()};
        for (size_t v = 0; v < sizeof values; v++) {
            if (values[v] == right) continue;
            bytes[i] = values[v];
            one();
        }
        bytes[i] = right;
    }
}
