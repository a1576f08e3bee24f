/* The ciphers, each described once, so that works, checks and rows go over any of them. */
#ifndef CIPHERS_H
#define CIPHERS_H

#include "own_enocoro.h"
#include "own_triad.h"
#include "own_trivium.h"
#include "semivrakh.h"

enum {
    MOST_RECORD_BYTES = SEMIVRAKH_CIPHER_BYTES, /* and TRIAD's */
    MOST_VALUE_BYTES = SEMIVRAKH_TRIAD_NONCE_BYTES,
    MOST_ENGINES = 4
};

/* The registers of any own C. */
union own_registers {
    struct own_trivium trivium;
    struct own_enocoro enocoro;
    struct own_triad triad;
};

/* An engine of the own C, by one compiler. Without a tag, what goes with one is NULL. */
struct engine {
    const char *name;
    int is_of_the_same_design; /* then the library should be as fast */
    own_encipher *encipher;
    own_tag *tag;
    own_seal *seal;
    own_open *open;
};

struct cipher {
    const char *name;
    uint8_t number; /* as a pack names it */
    const uint8_t *key;
    size_t key_bytes, value_bytes, record_bytes;
    uint8_t (*make)(uint8_t *cipher, size_t cipher_length, const uint8_t *key, size_t key_length,
                    const uint8_t *value, size_t value_length);
    uint8_t (*encipher)(uint8_t *cipher, size_t cipher_length, const uint8_t *input, size_t input_length,
                        uint8_t *output, size_t output_length);
    uint8_t (*tag)(const uint8_t *key, size_t key_length, const uint8_t *value, size_t value_length,
                   const uint8_t *associated, size_t associated_length, const uint8_t *message, size_t message_length,
                   uint8_t *tag, size_t tag_length); /* NULL where packs have no tag */
    own_make *own_make;
    own_record *own_record;
    size_t engine_count;
    struct engine engines[MOST_ENGINES];
};

enum { TRIVIUM, ENOCORO, TRIAD, CIPHERS };

extern const struct cipher ciphers[CIPHERS];

extern const uint8_t keys[SEMIVRAKH_KEYS_BYTES];

enum { KEY_NUMBER = 0 }; /* so the key in use is each cipher's first */

/* A cipher's initial value is as much of its front as the cipher takes. */
extern const uint8_t value[MOST_VALUE_BYTES];

#endif
