/* The keystream of ISO/IEC 29192-3, clause 6.1, in the order and the names of the clause, and its record. */
#include <string.h>

#include "model.h"

enum { BLANK_ROUNDS = 96, KEY_BYTES = 16, VALUE_BYTES = 8, BUFFER_BYTES = 32 };

/* A field of polynomials over GF(2): their degree, and the polynomial that they are taken modulo. A number stands for
 * the polynomial with its bits as coefficients. */
struct field {
    unsigned degree, modulus;
};

static const struct field gf_256 = {8, 1 << 8 | 1 << 4 | 1 << 3 | 1 << 2 | 1}; /* 6.1.1 */
static const struct field gf_16 = {4, 1 << 4 | 1 << 1 | 1};                   /* 6.1.8 */

static unsigned product(const struct field *field, unsigned one, unsigned other) {
    unsigned result = 0;
    for (unsigned i = 0; i < field->degree; i++) {
        if (other >> i & 1) result ^= one << i;
    }
    for (unsigned i = 2 * field->degree - 2; i >= field->degree; i--) {
        if (result >> i & 1) result ^= field->modulus << (i - field->degree);
    }
    return result;
}

/* 6.1.8, by its construction. The table in print is not used here, so that it can be held to this. */
uint8_t model_enocoro_s8(uint8_t x) {
    const uint8_t *s4 = model_rules.box;
    unsigned x0 = x / 16, x1 = x % 16;
    unsigned y0 = s4[s4[x0] ^ product(&gf_16, 4, s4[x1]) ^ 0xa];
    unsigned y1 = s4[product(&gf_16, 4, s4[x0]) ^ s4[x1] ^ 0x5];
    unsigned y = 16 * y0 + y1;
    return (uint8_t)(y << 1 | y >> 7);
}

/* 6.1.5, with L of 6.1.7 in its midst */
static void rho(uint8_t next_a[2], const uint8_t a[2], const uint8_t b[BUFFER_BYTES]) {
    const unsigned *boxed = model_rules.boxed;
    unsigned u0 = a[0] ^ model_enocoro_s8(b[boxed[0]]);
    unsigned u1 = a[1] ^ model_enocoro_s8(b[boxed[1]]);
    unsigned v0 = u0 ^ u1;
    unsigned v1 = u0 ^ product(&gf_256, 2, u1);
    next_a[0] = (uint8_t)v0 ^ model_enocoro_s8(b[boxed[2]]);
    next_a[1] = (uint8_t)v1 ^ model_enocoro_s8(b[boxed[3]]);
}

/* 6.1.6 */
static void lambda(uint8_t next_b[BUFFER_BYTES], const uint8_t b[BUFFER_BYTES], uint8_t a0) {
    for (int j = 1; j < BUFFER_BYTES; j++) next_b[j] = b[j - 1];
    next_b[0] = b[31] ^ a0;
    next_b[3] = b[2] ^ b[6];
    next_b[8] = b[7] ^ b[15];
    next_b[17] = b[16] ^ b[28];
}

/* 6.1.3 */
static void next(struct model_enocoro *enocoro) {
    struct model_enocoro now = *enocoro;
    rho(enocoro->a, now.a, now.b);
    lambda(enocoro->b, now.b, now.a[0]);
}

/* 6.1.2, a) to c) */
void model_enocoro_load(struct model_enocoro *enocoro, const uint8_t key[KEY_BYTES], const uint8_t value[VALUE_BYTES]) {
    static const uint8_t constants[10] = {0x66, 0xe9, 0x4b, 0xd4, 0xef, 0x8a, 0x2c, 0x3b, 0x88, 0x4c};
    for (int j = 0; j < KEY_BYTES; j++) enocoro->b[j] = key[j];
    for (int j = 0; j < VALUE_BYTES; j++) enocoro->b[j + 16] = value[j];
    for (int j = 0; j < 8; j++) enocoro->b[j + 24] = constants[j];
    enocoro->a[0] = constants[8];
    enocoro->a[1] = constants[9];
}

void model_enocoro_blank_round(struct model_enocoro *enocoro, uint8_t *counter) {
    enocoro->b[31] ^= *counter;
    *counter = (uint8_t)product(&gf_256, 2, *counter);
    next(enocoro);
}

void model_enocoro_warm_up(struct model_enocoro *enocoro) {
    uint8_t counter = 1;
    for (int round = 0; round < BLANK_ROUNDS; round++) model_enocoro_blank_round(enocoro, &counter);
}

/* 6.1.4, and on to the next state */
uint8_t model_enocoro_next_byte(struct model_enocoro *enocoro) {
    uint8_t byte = enocoro->a[1];
    next(enocoro);
    return byte;
}

void model_enocoro_read_record(struct model_enocoro *enocoro, const uint8_t *record) {
    memcpy(enocoro->a, record, 2);
    memcpy(enocoro->b, record + 2, BUFFER_BYTES);
}

void model_enocoro_write_record(uint8_t *record, const struct model_enocoro *enocoro) {
    memcpy(record, enocoro->a, 2);
    memcpy(record + 2, enocoro->b, BUFFER_BYTES);
}
