#include "lend.h"

#include <stdarg.h>
#include <stdio.h>
#include <stdlib.h>
#include <string.h>

#include "random.h"

/* The header's refusals, call by call. */
const uint8_t listed_refusals[CALLS][REFUSALS_MOST] = {
    [CIPHER_MAKE] = {1, 2, 19},
    [CIPHER_ENCIPHER] = {3, 19},
    [ENOCORO_MAKE] = {1, 2, 19},
    [ENOCORO_ENCIPHER] = {3, 19},
    [TRIAD_MAKE] = {1, 2, 19},
    [TRIAD_ENCIPHER] = {3, 19},
    [TRIAD_TAG] = {1, 2, 19},
    [PACK_OPEN] = {1, 11, 30, 12, 13, 31, 14, 15, 32, 16, 33, 17, 45, 18, 38, 19},
    [PACK_OPEN_STEREO] = {1, 11, 30, 12, 13, 31, 14, 15, 32, 16, 33, 17, 45, 18, 38, 35, 19},
    [PACK_SURVEY] = {11, 30, 12, 13, 31, 14, 15, 32, 16, 33, 17, 45, 18, 19},
    [PACK_LOOPS] = {11, 30, 12, 13, 31, 14, 15, 32, 16, 33, 17, 45, 18, 19},
    [PACK_LACKS] = {0},
    [PACK_SEAL] = {1, 11, 12, 13, 2, 14, 15, 34, 16, 17, 19},
    [SENDER_MAKE] = {1, 2, 19},
    [SENDER_BEGIN] = {27, 21, 20},
    [SENDER_SEND] = {27, 22, 23, 19},
    [SENDER_HEAR] = {27, 24, 22, 25, 26},
    [SENDER_STATUS] = {27, 19},
    [RECEIVER_MAKE] = {1, 2, 19},
    [RECEIVER_HEAR] = {27, 24, 25, 36, 26, 23, 19},
    [RECEIVER_STATUS] = {27, 19},
};

const char *const call_names[CALLS] = {
    [CIPHER_MAKE] = "cipher_make",     [CIPHER_ENCIPHER] = "cipher_encipher",
    [ENOCORO_MAKE] = "enocoro_make",   [ENOCORO_ENCIPHER] = "enocoro_encipher",
    [TRIAD_MAKE] = "triad_make",       [TRIAD_ENCIPHER] = "triad_encipher",
    [TRIAD_TAG] = "triad_tag",         [PACK_OPEN] = "pack_open",
    [PACK_OPEN_STEREO] = "pack_open_stereo",
    [PACK_SURVEY] = "pack_survey",     [PACK_LOOPS] = "pack_loops",
    [PACK_LACKS] = "pack_lacks",       [PACK_SEAL] = "pack_seal",
    [SENDER_MAKE] = "sender_make",     [SENDER_BEGIN] = "sender_begin",
    [SENDER_SEND] = "sender_send",     [SENDER_HEAR] = "sender_hear",
    [SENDER_STATUS] = "sender_status", [RECEIVER_MAKE] = "receiver_make",
    [RECEIVER_HEAR] = "receiver_hear", [RECEIVER_STATUS] = "receiver_status",
};

enum { GUARD = 16, MEMORY = 1 << 19, ORIGINAL = SIDES, NOT_PLANNED = -1 };

static _Alignas(16) uint8_t memory[SIDES + 1][MEMORY];
static size_t used;

static struct {
    const char *name;
    size_t at, bytes;
    bool null, may_write;
} places[LENT_MOST];
static unsigned lent_count;

static uint8_t noise_pool[NOISE_BYTES];
static uint64_t comparisons;
static uint64_t answered[CALLS][NUMBERS];
static enum call last_call;
static int planned = NOT_PLANNED;

void fill_noise(void) {
    random_fill(noise_pool, NOISE_BYTES);
}

const uint8_t *noise(size_t count) {
    return noise_pool + random_below((uint32_t)(NOISE_BYTES - count));
}

static size_t place_for(size_t size) {
    if (size == 1) return used + random_below(GUARD);
    return (used + size - 1) / size * size;
}

static void put_noise(size_t from, size_t to) {
    memcpy(memory[ORIGINAL] + from, noise(to - from), to - from);
}

static void lend_one(unsigned index, const struct lending *lending) {
    size_t bytes = lending->count * lending->size;
    size_t at = place_for(lending->size);
    if (at + bytes + GUARD > MEMORY) differ("the driver's memory is too small for its own input");
    put_noise(used, at);
    if (lending->content == NULL) put_noise(at, at + bytes);
    else memcpy(memory[ORIGINAL] + at, lending->content, bytes);
    put_noise(at + bytes, at + bytes + GUARD);
    used = at + bytes + GUARD;
    places[index].name = lending->name;
    places[index].at = at;
    places[index].bytes = bytes;
    places[index].null = lending->count == 0 && random_once_in(2);
    places[index].may_write = lending->may_write;
}

void lend_all(const struct lending *lendings, unsigned count) {
    used = GUARD;
    put_noise(0, GUARD);
    lent_count = count;
    for (unsigned i = 0; i < count; i++) lend_one(i, &lendings[i]);
    memcpy(memory[LIBRARY], memory[ORIGINAL], used);
    memcpy(memory[MODEL], memory[ORIGINAL], used);
}

void *lent(enum side side, unsigned index) {
    return places[index].null ? NULL : memory[side] + places[index].at;
}

const void *after(unsigned index) {
    return memory[comparisons % SIDES] + places[index].at;
}

void plan_number(uint8_t number) {
    planned = number;
}

uint64_t comparisons_made(void) {
    return comparisons;
}

uint64_t times_answered(enum call call, uint8_t number) {
    return answered[call][number];
}

void differ(const char *format, ...) {
    va_list arguments;
    printf("FAILED at comparison %llu, semivrakh_%s: ", (unsigned long long)comparisons, call_names[last_call]);
    va_start(arguments, format);
    vprintf(format, arguments);
    va_end(arguments);
    printf("\n");
    exit(1);
}

static size_t first_difference(enum side one, size_t other, size_t from, size_t count) {
    size_t i = 0;
    while (i < count && memory[one][from + i] == memory[other][from + i]) i++;
    return from + i;
}

/* Names the place of a byte of the memories: in a lent buffer, or between them. */
static const char *describe_place(size_t at, size_t *index) {
    for (unsigned i = 0; i < lent_count; i++) {
        if (at >= places[i].at && at < places[i].at + places[i].bytes) {
            *index = at - places[i].at;
            return places[i].name;
        }
    }
    *index = at;
    return "guard bytes";
}

static void require_same(enum side one, size_t other, size_t from, size_t count, const char *what) {
    if (memcmp(memory[one] + from, memory[other] + from, count) == 0) return;
    size_t index, at = first_difference(one, other, from, count);
    const char *place = describe_place(at, &index);
    differ("%s: %s, byte %zu, is %02X and should be %02X", what, place, index, memory[one][at], memory[other][at]);
}

static void require_guards(enum side side) {
    size_t from = 0;
    for (unsigned i = 0; i < lent_count; i++) {
        require_same(side, ORIGINAL, from, places[i].at - from, "bytes around a buffer changed");
        from = places[i].at + places[i].bytes;
        if (!places[i].may_write) {
            require_same(side, ORIGINAL, places[i].at, places[i].bytes, "a buffer lent for reading changed");
        }
    }
    require_same(side, ORIGINAL, from, used - from, "bytes around a buffer changed");
}

static bool is_listed(enum call call, uint8_t number) {
    return number == 0 || memchr(listed_refusals[call], number, sizeof listed_refusals[call]) != NULL;
}

uint8_t settle(enum call call, const uint8_t numbers[SIDES]) {
    uint8_t number = numbers[LIBRARY];
    last_call = call;
    comparisons++;
    if (number != numbers[MODEL]) differ("the library answers %d, the model %d", number, numbers[MODEL]);
    if (!is_listed(call, number)) differ("the answer is %d, which the header does not list", number);
    if (planned != NOT_PLANNED && number != planned) differ("the answer is %d, and %d was due", number, planned);
    planned = NOT_PLANNED;
    require_same(LIBRARY, MODEL, 0, used, "the library and the model leave different bytes");
    if (number != 0) require_same(LIBRARY, ORIGINAL, 0, used, "a refused call wrote");
    require_guards(LIBRARY);
    answered[call][number]++;
    return number;
}
