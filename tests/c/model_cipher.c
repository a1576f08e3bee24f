/* The ciphers by their lengths and generators, and the calls that each of them has. */
#include "model.h"

static void start_trivium(union model_generator *generator, const uint8_t *key, const uint8_t *value) {
    model_trivium_load(&generator->trivium, key, value);
    model_trivium_warm_up(&generator->trivium);
}

static uint8_t next_of_trivium(union model_generator *generator) {
    return model_trivium_next_byte(&generator->trivium);
}

static void read_trivium(union model_generator *generator, const uint8_t *record) {
    model_trivium_read_record(&generator->trivium, record);
}

static void write_trivium(uint8_t *record, const union model_generator *generator) {
    model_trivium_write_record(record, &generator->trivium);
}

static void start_enocoro(union model_generator *generator, const uint8_t *key, const uint8_t *value) {
    model_enocoro_load(&generator->enocoro, key, value);
    model_enocoro_warm_up(&generator->enocoro);
}

static uint8_t next_of_enocoro(union model_generator *generator) {
    return model_enocoro_next_byte(&generator->enocoro);
}

static void read_enocoro(union model_generator *generator, const uint8_t *record) {
    model_enocoro_read_record(&generator->enocoro, record);
}

static void write_enocoro(uint8_t *record, const union model_generator *generator) {
    model_enocoro_write_record(record, &generator->enocoro);
}

static void start_triad(union model_generator *generator, const uint8_t *key, const uint8_t *value) {
    model_triad_start(&generator->triad, key, value);
}

static uint8_t next_of_triad(union model_generator *generator) {
    return model_triad_next_byte(&generator->triad);
}

static void read_triad(union model_generator *generator, const uint8_t *record) {
    model_triad_read_record(&generator->triad, record);
}

static void write_triad(uint8_t *record, const union model_generator *generator) {
    model_triad_write_record(record, &generator->triad);
}

const struct model_cipher model_ciphers[MODEL_CIPHERS] = {
    [MODEL_TRIVIUM] = {
        .name = "Trivium", .key_count = 11, .record_bytes = 48, .key_bytes = 10, .value_bytes = 10, .keys_at = 0,
        .start = start_trivium, .next_byte = next_of_trivium,
        .read_record = read_trivium, .write_record = write_trivium,
    },
    [MODEL_ENOCORO] = {
        .name = "Enocoro", .key_count = 9, .record_bytes = 34, .key_bytes = 16, .value_bytes = 8, .keys_at = 40,
        .start = start_enocoro, .next_byte = next_of_enocoro,
        .read_record = read_enocoro, .write_record = write_enocoro,
    },
    [MODEL_TRIAD] = {
        .name = "TRIAD", .key_count = 13, .record_bytes = 48, .key_bytes = 16, .value_bytes = 12, .keys_at = 104,
        .tag_bytes = 8, .start = start_triad, .next_byte = next_of_triad,
        .read_record = read_triad, .write_record = write_triad, .tag = model_triad_mac,
    },
};

unsigned model_cipher_of(uint32_t key_count) {
    unsigned which = 0;
    while (which < MODEL_CIPHERS && model_ciphers[which].key_count != key_count) which++;
    return which;
}

const uint8_t *model_cipher_key(const struct model_cipher *cipher, const uint8_t *keys, size_t key_number) {
    return keys + cipher->keys_at + cipher->key_bytes * key_number;
}

void model_cipher_start(union model_generator *generator, const struct model_cipher *cipher, const uint8_t *keys,
                        size_t key_number, const uint8_t *value) {
    cipher->start(generator, model_cipher_key(cipher, keys, key_number), value);
}

static uint8_t make(const struct model_cipher *cipher, uint8_t *record, size_t record_length,
                    const uint8_t *key, size_t key_length,
                    const uint8_t *value, size_t value_length) {
    union model_generator generator;
    if (key_length != cipher->key_bytes) return model_no(MODEL_BAD_KEY);
    if (value_length != cipher->value_bytes) return model_no(MODEL_BAD_VALUE);
    if (record_length < cipher->record_bytes) return model_no(MODEL_NO_ROOM);
    cipher->start(&generator, key, value);
    cipher->write_record(record, &generator);
    return 0;
}

static uint8_t encipher(const struct model_cipher *cipher, uint8_t *record, size_t record_length,
                        const uint8_t *input, size_t input_length,
                        uint8_t *output, size_t output_length) {
    union model_generator generator;
    if (record_length != cipher->record_bytes) return model_no(MODEL_NOT_A_CIPHER);
    if (output_length < input_length) return model_no(MODEL_NO_ROOM);
    cipher->read_record(&generator, record);
    for (size_t i = 0; i < input_length; i++) output[i] = input[i] ^ cipher->next_byte(&generator);
    cipher->write_record(record, &generator);
    return 0;
}

uint8_t model_cipher_make(uint8_t *cipher, size_t cipher_length,
                          const uint8_t *key, size_t key_length,
                          const uint8_t *value, size_t value_length) {
    return make(&model_ciphers[MODEL_TRIVIUM], cipher, cipher_length, key, key_length, value, value_length);
}

uint8_t model_cipher_encipher(uint8_t *cipher, size_t cipher_length,
                              const uint8_t *input, size_t input_length,
                              uint8_t *output, size_t output_length) {
    return encipher(&model_ciphers[MODEL_TRIVIUM], cipher, cipher_length, input, input_length, output, output_length);
}

uint8_t model_enocoro_make(uint8_t *cipher, size_t cipher_length,
                           const uint8_t *key, size_t key_length,
                           const uint8_t *value, size_t value_length) {
    return make(&model_ciphers[MODEL_ENOCORO], cipher, cipher_length, key, key_length, value, value_length);
}

uint8_t model_enocoro_encipher(uint8_t *cipher, size_t cipher_length,
                               const uint8_t *input, size_t input_length,
                               uint8_t *output, size_t output_length) {
    return encipher(&model_ciphers[MODEL_ENOCORO], cipher, cipher_length, input, input_length, output, output_length);
}

uint8_t model_triad_make(uint8_t *cipher, size_t cipher_length,
                         const uint8_t *key, size_t key_length,
                         const uint8_t *nonce, size_t nonce_length) {
    return make(&model_ciphers[MODEL_TRIAD], cipher, cipher_length, key, key_length, nonce, nonce_length);
}

uint8_t model_triad_encipher(uint8_t *cipher, size_t cipher_length,
                             const uint8_t *input, size_t input_length,
                             uint8_t *output, size_t output_length) {
    return encipher(&model_ciphers[MODEL_TRIAD], cipher, cipher_length, input, input_length, output, output_length);
}

uint8_t model_triad_tag(const uint8_t *key, size_t key_length,
                        const uint8_t *nonce, size_t nonce_length,
                        const uint8_t *associated, size_t associated_length,
                        const uint8_t *message, size_t message_length,
                        uint8_t *tag, size_t tag_length) {
    const struct model_cipher *triad = &model_ciphers[MODEL_TRIAD];
    if (key_length != triad->key_bytes) return model_no(MODEL_BAD_KEY);
    if (nonce_length != triad->value_bytes) return model_no(MODEL_BAD_VALUE);
    if (tag_length < triad->tag_bytes) return model_no(MODEL_NO_ROOM);
    model_triad_mac(tag, key, nonce, associated, associated_length, message, message_length);
    return 0;
}
