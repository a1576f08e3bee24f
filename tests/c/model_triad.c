/* TRIAD-AE of the paper "TRIAD v1", section 2, line by line of its algorithms and in their names, and its record. */
#include <string.h>

#include "model.h"

enum { ROUNDS = 1024, LENGTH_BYTES = 7, TAG_BYTES = 8, A_BITS = 80, B_BITS = 88, C_BITS = 88 };

/* (x1, x2, ..) <- (t, x1, ..) of algorithm 1, lines 9 to 11. Bit 1 of a register stands at index 1. */
static void shift(uint8_t *x, size_t bits, unsigned t) {
    memmove(x + 2, x + 1, bits - 1);
    x[1] = (uint8_t)t;
}

/* Algorithm 1, with a68 + a80 + b85 c85 in its line 2. Answers z. */
static unsigned update(struct model_triad *triad, unsigned msg) {
    uint8_t *a = triad->a, *b = triad->b, *c = triad->c;
    const struct model_taps *taps = model_rules.triad_taps;
    const struct model_taps *in_a = &taps[MODEL_A], *in_b = &taps[MODEL_B], *in_c = &taps[MODEL_C];
    unsigned product = model_rules.triad_product;
    unsigned t1 = a[in_a->near] ^ a[in_a->oldest] ^ (b[product] & c[product]);
    unsigned t2 = b[in_b->near] ^ b[in_b->oldest];
    unsigned t3 = c[in_c->near] ^ c[in_c->oldest];
    unsigned z = t1 ^ t2 ^ t3;
    t1 ^= (a[in_a->factor] & a[in_a->other_factor]) ^ b[in_b->own] ^ msg;
    t2 ^= (b[in_b->factor] & b[in_b->other_factor]) ^ c[in_c->own] ^ msg;
    t3 ^= (c[in_c->factor] & c[in_c->other_factor]) ^ a[in_a->own] ^ msg;
    shift(a, A_BITS, t3);
    shift(b, B_BITS, t1);
    shift(c, C_BITS, t2);
    return z;
}

/* Algorithm 2: TriadP takes in a 0 in its first round, TriadPB a 1. */
static void permute(struct model_triad *triad, unsigned first) {
    update(triad, first);
    for (int i = 2; i <= ROUNDS; i++) update(triad, 0);
}

/* The paper's bit j of a byte, from 1 to 8: bit 1 is the most significant. */
static unsigned bit_of(uint8_t byte, int j) {
    return byte >> (8 - j) & 1;
}

/* Bytes behind each other, each from its bit 1 on, are the bits of a register from its bit 1 on. */
static void load(uint8_t *x, const uint8_t *bytes, size_t count) {
    for (size_t i = 0; i < count; i++) {
        for (int j = 1; j <= 8; j++) x[8 * i + (size_t)j] = (uint8_t)bit_of(bytes[i], j);
    }
}

/* Algorithms 4 and 5, lines 2 to 4, and equation 1: con is FF FF FF FE from con[3] down to con[0]. */
static void begin(struct model_triad *triad, const uint8_t *key, const uint8_t *nonce) {
    static const uint8_t con[4] = {0xFE, 0xFF, 0xFF, 0xFF};
    const uint8_t a[10] = {
        nonce[0], key[4], con[3], key[3], con[2], key[2], con[1], key[1], con[0], key[0],
    };
    uint8_t b[11], c[11];
    for (int i = 0; i < 11; i++) {
        b[i] = nonce[11 - i];
        c[i] = key[15 - i];
    }
    load(triad->a, a, sizeof a);
    load(triad->b, b, sizeof b);
    load(triad->c, c, sizeof c);
}

void model_triad_start(struct model_triad *triad, const uint8_t key[16], const uint8_t nonce[12]) {
    begin(triad, key, nonce);
    permute(triad, 0);
}

/* Algorithm 4, lines 7 to 10, under a byte of zeros: bit 8 of a byte comes first. */
uint8_t model_triad_next_byte(struct model_triad *triad) {
    unsigned byte = 0;
    for (int j = 8; j >= 1; j--) byte |= update(triad, 0) << (8 - j);
    return (uint8_t)byte;
}

static void take_in(struct model_triad *triad, uint8_t byte) {
    for (int j = 8; j >= 1; j--) update(triad, bit_of(byte, j));
}

/* Algorithm 5. Behind the associated data stands their length, its lowest byte first. */
void model_triad_mac(uint8_t *tag, const uint8_t *key, const uint8_t *nonce,
                     const uint8_t *associated, size_t associated_length,
                     const uint8_t *message, size_t message_length) {
    struct model_triad triad;
    begin(&triad, key, nonce);
    permute(&triad, 1);
    for (size_t i = 0; i < associated_length; i++) take_in(&triad, associated[i]);
    for (int i = 0; i < LENGTH_BYTES; i++) take_in(&triad, (uint8_t)((uint64_t)associated_length >> 8 * i & 0xFF));
    for (size_t i = 0; i < message_length; i++) take_in(&triad, message[i]);
    permute(&triad, 1);
    for (int i = 0; i < TAG_BYTES; i++) tag[i] = model_triad_next_byte(&triad);
}

/* In a record each register has 16 bytes: first the number of its bits from 65 on, then that of its bits 1 to 64, each
 * with its first bit as the most significant. What is behind the register's last bit is spare. */
enum { REGISTER_BYTES = 16, WORD_BITS = 64 };

/* Where bit k of a register stands: its byte, and in that byte how far up. */
static size_t place_of(size_t k) {
    return k <= WORD_BITS ? 8 + (k - 1) / 8 : (k - WORD_BITS - 1) / 8;
}

static unsigned height_of(size_t k) {
    return (unsigned)(7 - (k - 1) % 8);
}

static void read_register(uint8_t *x, size_t bits, const uint8_t *bytes) {
    for (size_t k = 1; k <= bits; k++) x[k] = bytes[place_of(k)] >> height_of(k) & 1;
}

static void write_register(uint8_t *bytes, const uint8_t *x, size_t bits) {
    memset(bytes, 0, REGISTER_BYTES);
    for (size_t k = 1; k <= bits; k++) bytes[place_of(k)] |= (uint8_t)(x[k] << height_of(k));
}

void model_triad_read_record(struct model_triad *triad, const uint8_t *record) {
    read_register(triad->a, A_BITS, record);
    read_register(triad->b, B_BITS, record + REGISTER_BYTES);
    read_register(triad->c, C_BITS, record + 2 * REGISTER_BYTES);
}

void model_triad_write_record(uint8_t *record, const struct model_triad *triad) {
    write_register(record, triad->a, A_BITS);
    write_register(record + REGISTER_BYTES, triad->b, B_BITS);
    write_register(record + 2 * REGISTER_BYTES, triad->c, C_BITS);
}
