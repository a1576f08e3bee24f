#include "own_trivium.h"

enum { WARM_UP_STEPS = 1152, STEPS_A_STRIDE = 64, STRIDE_BYTES = 8 };

/* How many bits of a register stand in its word 1. */
enum { A_UPPER_BITS = 93 - 64, B_UPPER_BITS = 84 - 64, C_UPPER_BITS = 111 - 64 };

static uint64_t lowest(uint64_t word, int bits) { return word & ((UINT64_C(1) << bits) - 1); }

/* The 64 bits of a register that the next 64 steps read at one tap, the first of them the highest. */
static uint64_t tap(uint64_t upper, uint64_t lower, int back)
{
    return upper << (128 - back) | lower >> (back - 64);
}

/* 64 steps. No tap reaches a bit that comes in on the way, nor a spare bit, so nothing has to be masked here. */
static uint64_t stride(struct own_trivium *t)
{
    uint64_t from_a = tap(t->a1, t->a0, 66) ^ tap(t->a1, t->a0, 93);
    uint64_t from_b = tap(t->b1, t->b0, 69) ^ tap(t->b1, t->b0, 84);
    uint64_t from_c = tap(t->c1, t->c0, 66) ^ tap(t->c1, t->c0, 111);
    uint64_t new_a = from_c ^ (tap(t->c1, t->c0, 110) & tap(t->c1, t->c0, 109)) ^ tap(t->a1, t->a0, 69);
    uint64_t new_b = from_a ^ (tap(t->a1, t->a0, 92) & tap(t->a1, t->a0, 91)) ^ tap(t->b1, t->b0, 78);
    uint64_t new_c = from_b ^ (tap(t->b1, t->b0, 83) & tap(t->b1, t->b0, 82)) ^ tap(t->c1, t->c0, 87);
    *t = (struct own_trivium){ t->a0, new_a, t->b0, new_b, t->c0, new_c };
    return from_a ^ from_b ^ from_c;
}

/* The bit of a register so many steps back, as the lowest; what stands above it is for the caller to drop. */
static uint64_t bit(uint64_t upper, int back) { return upper >> (back - 65); }

/* One step. Every tap lies in an upper word. */
static unsigned step(struct own_trivium *t)
{
    uint64_t from_a = bit(t->a1, 66) ^ bit(t->a1, 93);
    uint64_t from_b = bit(t->b1, 69) ^ bit(t->b1, 84);
    uint64_t from_c = bit(t->c1, 66) ^ bit(t->c1, 111);
    uint64_t new_a = from_c ^ (bit(t->c1, 110) & bit(t->c1, 109)) ^ bit(t->a1, 69);
    uint64_t new_b = from_a ^ (bit(t->a1, 92) & bit(t->a1, 91)) ^ bit(t->b1, 78);
    uint64_t new_c = from_b ^ (bit(t->b1, 83) & bit(t->b1, 82)) ^ bit(t->c1, 87);
    *t = (struct own_trivium){
        t->a1 << 1 | t->a0 >> 63, t->a0 << 1 | (new_a & 1),
        t->b1 << 1 | t->b0 >> 63, t->b0 << 1 | (new_b & 1),
        t->c1 << 1 | t->c0 >> 63, t->c0 << 1 | (new_c & 1),
    };
    return (from_a ^ from_b ^ from_c) & 1;
}

void own_trivium_make(void *cipher, const uint8_t *key, const uint8_t *value)
{
    struct own_trivium t = {
        (uint64_t)key[0] << 8 | key[1], load_word(key + 2),
        (uint64_t)value[0] << 8 | value[1], load_word(value + 2),
        UINT64_C(7) << (C_UPPER_BITS - 3), 0,
    };
    for (int done = 0; done < WARM_UP_STEPS; done += STEPS_A_STRIDE)
        stride(&t);
    *(struct own_trivium *)cipher = t;
}

void own_trivium_encipher(void *cipher, const uint8_t *input, uint8_t *output, size_t count)
{
    struct own_trivium t = *(struct own_trivium *)cipher; /* a copy, so that it can stay in the processor's registers */
    size_t at = 0;
    for (; count - at >= STRIDE_BYTES; at += STRIDE_BYTES)
        store_word(output + at, load_word(input + at) ^ stride(&t));
    *(struct own_trivium *)cipher = t;
    own_trivium_encipher_by_bits(cipher, input + at, output + at, count - at);
}

void own_trivium_encipher_by_bits(void *cipher, const uint8_t *input, uint8_t *output, size_t count)
{
    struct own_trivium t = *(struct own_trivium *)cipher;
    for (size_t at = 0; at < count; at++) {
        unsigned keystream = 0;
        for (int bits = 0; bits < 8; bits++)
            keystream = keystream << 1 | step(&t);
        output[at] = (uint8_t)(input[at] ^ keystream);
    }
    *(struct own_trivium *)cipher = t;
}

void own_trivium_record(const void *cipher, uint8_t *record)
{
    const struct own_trivium *t = cipher;
    store_word(record, lowest(t->a1, A_UPPER_BITS));
    store_word(record + 8, t->a0);
    store_word(record + 16, lowest(t->b1, B_UPPER_BITS));
    store_word(record + 24, t->b0);
    store_word(record + 32, lowest(t->c1, C_UPPER_BITS));
    store_word(record + 40, t->c0);
}
