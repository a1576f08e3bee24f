/* one_call CIPHER WHAT: gets all ready under a cipher, and then makes one call of the library, or none. What a call
 * executes is then the difference between two runs: bench/instructions counts them. */
#include <stdint.h>
#include <stdio.h>
#include <string.h>

#include "semivrakh.h"

enum { BYTES = 2 * SEMIVRAKH_SAMPLES_MOST, NO_SUCH_CALL = 255 };

/* As much as a pack can have: a name of 32 bytes and eight loops. */
enum { ASSOCIATED_BYTES = SEMIVRAKH_PACK_MOST - BYTES - 1 - SEMIVRAKH_TAG_BYTES };

static uint8_t input[BYTES], output[BYTES], file[SEMIVRAKH_PACK_MOST], record[SEMIVRAKH_CIPHER_BYTES];
static int16_t samples[SEMIVRAKH_SAMPLES_MOST];
static float frames[SEMIVRAKH_SAMPLES_MOST];
static const uint8_t keys[SEMIVRAKH_KEYS_BYTES], value[SEMIVRAKH_TRIAD_NONCE_BYTES], associated[ASSOCIATED_BYTES];

static const struct cipher {
    const char *name;
    uint8_t number;
    size_t key_bytes, value_bytes, record_bytes;
    uint8_t (*make)(uint8_t *, size_t, const uint8_t *, size_t, const uint8_t *, size_t);
    uint8_t (*encipher)(uint8_t *, size_t, const uint8_t *, size_t, uint8_t *, size_t);
} ciphers[] = {
    { "Trivium", SEMIVRAKH_TRIVIUM, SEMIVRAKH_KEY_BYTES, SEMIVRAKH_VALUE_BYTES, SEMIVRAKH_CIPHER_BYTES,
      semivrakh_cipher_make, semivrakh_cipher_encipher },
    { "Enocoro", SEMIVRAKH_ENOCORO, SEMIVRAKH_ENOCORO_KEY_BYTES, SEMIVRAKH_ENOCORO_VALUE_BYTES, SEMIVRAKH_ENOCORO_BYTES,
      semivrakh_enocoro_make, semivrakh_enocoro_encipher },
    { "TRIAD", SEMIVRAKH_TRIAD, SEMIVRAKH_TRIAD_KEY_BYTES, SEMIVRAKH_TRIAD_NONCE_BYTES, SEMIVRAKH_TRIAD_BYTES,
      semivrakh_triad_make, semivrakh_triad_encipher },
};

static const struct cipher *named(const char *name) {
    for (size_t at = 0; at < sizeof ciphers / sizeof *ciphers; at++)
        if (strcmp(ciphers[at].name, name) == 0) return &ciphers[at];
    return NULL;
}

static uint8_t make(const struct cipher *cipher) {
    return cipher->make(record, cipher->record_bytes, keys, cipher->key_bytes, value, cipher->value_bytes);
}

static uint8_t encipher(const struct cipher *cipher) {
    return cipher->encipher(record, cipher->record_bytes, input, BYTES, output, BYTES);
}

/* TRIAD's alone. */
static uint8_t tag(void) {
    return semivrakh_triad_tag(keys, SEMIVRAKH_TRIAD_KEY_BYTES, value, SEMIVRAKH_TRIAD_NONCE_BYTES,
                               associated, sizeof associated, input, BYTES, output, SEMIVRAKH_TAG_BYTES);
}

static uint8_t seal(const struct cipher *cipher, size_t *length) {
    return semivrakh_pack_seal(NULL, 0, keys, sizeof keys, cipher->number, 0, value, cipher->value_bytes,
                               samples, SEMIVRAKH_SAMPLES_MOST, NULL, 0, file, sizeof file, length);
}

static uint8_t open_pack(size_t length) {
    size_t answer[SEMIVRAKH_OPENED_NUMBERS];
    return semivrakh_pack_open(file, length, keys, sizeof keys, samples, SEMIVRAKH_SAMPLES_MOST, answer,
                               SEMIVRAKH_OPENED_NUMBERS);
}

static uint8_t open_stereo(size_t length) {
    size_t answer[SEMIVRAKH_OPENED_NUMBERS];
    return semivrakh_pack_open_stereo(file, length, keys, sizeof keys, frames, SEMIVRAKH_SAMPLES_MOST, answer,
                                      SEMIVRAKH_OPENED_NUMBERS);
}

static uint8_t call(const struct cipher *cipher, const char *what, size_t length) {
    if (strcmp(what, "make") == 0) return make(cipher);
    if (strcmp(what, "encipher") == 0) return encipher(cipher);
    if (strcmp(what, "tag") == 0 && cipher->number == SEMIVRAKH_TRIAD) return tag();
    if (strcmp(what, "open") == 0) return open_pack(length);
    if (strcmp(what, "stereo") == 0) return open_stereo(length);
    if (strcmp(what, "seal") == 0) return seal(cipher, &length);
    return strcmp(what, "none") == 0 ? SEMIVRAKH_OK : NO_SUCH_CALL;
}

int main(int count, char **words) {
    const struct cipher *cipher = count == 3 ? named(words[1]) : NULL;
    uint8_t no = NO_SUCH_CALL;
    size_t length = 0;
    if (cipher != NULL) no = make(cipher);
    if (no == 0) no = seal(cipher, &length);
    if (no == 0) no = call(cipher, words[2], length);
    if (no != 0) fprintf(stderr, "one_call CIPHER WHAT: no such cipher or call, or one was refused: %d\n", no);
    return no != 0;
}
