/* The keystream of ISO/IEC 29192-3, clause 6.3, bit by bit, and its record. */
#include <string.h>

#include "model.h"

static const unsigned widths[MODEL_REGISTERS] = {93, 84, 111};

/* Which register's old bits make the new bit of each. */
static const int source[MODEL_REGISTERS] = {[MODEL_A] = MODEL_C, [MODEL_B] = MODEL_A, [MODEL_C] = MODEL_B};

enum { BLANK_ROUNDS = 1152, KEY_BITS = 80 };

unsigned model_width(int which) {
    return widths[which];
}

static unsigned back(const struct model_register *sequence, unsigned k) {
    return sequence->bits[sequence->next - k];
}

unsigned model_trivium_bit(const struct model_trivium *trivium, int which, unsigned k) {
    return back(&trivium->registers[which], k);
}

/* At the end of the window, the bits that are still read move to its front. */
static void append(struct model_register *sequence, unsigned width, unsigned bit) {
    if (sequence->next == MODEL_WINDOW) {
        memmove(sequence->bits, sequence->bits + MODEL_WINDOW - width, width);
        sequence->next = width;
    }
    sequence->bits[sequence->next] = (uint8_t)bit;
    sequence->next++;
}

static unsigned new_bit(const struct model_trivium *trivium, int which) {
    const struct model_register *from = &trivium->registers[source[which]];
    const struct model_taps *taps = &model_rules.taps[source[which]];
    unsigned product = back(from, taps->factor) & back(from, taps->other_factor);
    unsigned own = back(&trivium->registers[which], model_rules.taps[which].own);
    return back(from, taps->near) ^ back(from, taps->oldest) ^ product ^ own;
}

void model_trivium_step(struct model_trivium *trivium) {
    unsigned a = new_bit(trivium, MODEL_A);
    unsigned b = new_bit(trivium, MODEL_B);
    unsigned c = new_bit(trivium, MODEL_C);
    append(&trivium->registers[MODEL_A], widths[MODEL_A], a);
    append(&trivium->registers[MODEL_B], widths[MODEL_B], b);
    append(&trivium->registers[MODEL_C], widths[MODEL_C], c);
}

unsigned model_trivium_output(const struct model_trivium *trivium) {
    unsigned output = 0;
    for (int which = 0; which < MODEL_REGISTERS; which++) {
        const struct model_register *from = &trivium->registers[which];
        output ^= back(from, model_rules.taps[which].near) ^ back(from, model_rules.taps[which].oldest);
    }
    return output;
}

/* Bit i of a run of bytes: bit 0 is the most significant of the first byte. */
static unsigned bit_of(const uint8_t *bytes, unsigned i) {
    return bytes[i / 8] >> (7 - i % 8) & 1;
}

static void append_zeros(struct model_register *sequence, unsigned count, unsigned width) {
    for (unsigned i = 0; i < count; i++) append(sequence, width, 0);
}

static void append_bits(struct model_register *sequence, const uint8_t *bytes, unsigned width) {
    for (unsigned i = 0; i < KEY_BITS; i++) append(sequence, width, bit_of(bytes, i));
}

void model_trivium_load(struct model_trivium *trivium, const uint8_t key[10], const uint8_t value[10]) {
    struct model_register *a = &trivium->registers[MODEL_A];
    struct model_register *b = &trivium->registers[MODEL_B];
    struct model_register *c = &trivium->registers[MODEL_C];
    a->next = b->next = c->next = 0;
    append_zeros(a, 13, widths[MODEL_A]);
    append_bits(a, key, widths[MODEL_A]);
    append_zeros(b, 4, widths[MODEL_B]);
    append_bits(b, value, widths[MODEL_B]);
    for (int i = 0; i < 3; i++) append(c, widths[MODEL_C], 1);
    append_zeros(c, 108, widths[MODEL_C]);
}

void model_trivium_warm_up(struct model_trivium *trivium) {
    for (int round = 0; round < BLANK_ROUNDS; round++) model_trivium_step(trivium);
}

uint8_t model_trivium_next_byte(struct model_trivium *trivium) {
    unsigned byte = 0;
    for (int i = 0; i < 8; i++) {
        byte = byte * 2 + model_trivium_output(trivium);
        model_trivium_step(trivium);
    }
    return (uint8_t)byte;
}

/* In a record each register has 16 bytes, as one number whose lowest bit is the newest. */
enum { REGISTER_BYTES = 16 };

void model_trivium_read_record(struct model_trivium *trivium, const uint8_t *record) {
    for (int which = 0; which < MODEL_REGISTERS; which++) {
        const uint8_t *number = record + REGISTER_BYTES * which;
        trivium->registers[which].next = 0;
        for (unsigned k = widths[which]; k > 0; k--) {
            unsigned bit = number[REGISTER_BYTES - 1 - (k - 1) / 8] >> ((k - 1) % 8) & 1;
            append(&trivium->registers[which], widths[which], bit);
        }
    }
}

void model_trivium_write_record(uint8_t *record, const struct model_trivium *trivium) {
    memset(record, 0, SEMIVRAKH_CIPHER_BYTES);
    for (int which = 0; which < MODEL_REGISTERS; which++) {
        uint8_t *number = record + REGISTER_BYTES * which;
        for (unsigned k = 1; k <= widths[which]; k++) {
            unsigned bit = model_trivium_bit(trivium, which, k);
            number[REGISTER_BYTES - 1 - (k - 1) / 8] |= (uint8_t)(bit << ((k - 1) % 8));
        }
    }
}
