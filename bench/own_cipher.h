/*
 * What the own C of each cipher gives. A cipher's registers are lent as a pointer to anything, so that one function can
 * go over all ciphers and engines; each own C says which struct it means.
 */
#ifndef OWN_CIPHER_H
#define OWN_CIPHER_H

#include <stddef.h>
#include <stdint.h>
#include <string.h>

typedef void own_make(void *cipher, const uint8_t *key, const uint8_t *value);

/* Each engine of a cipher gives the same bytes, and leaves the same registers. */
typedef void own_encipher(void *cipher, const uint8_t *input, uint8_t *output, size_t count);

/* The registers in the form of the library's record, spare bits zero. */
typedef void own_record(const void *cipher, uint8_t *record);

/* The tag of associated data and of a message. */
typedef void own_tag(const uint8_t *key, const uint8_t *value, const uint8_t *associated, size_t associated_count,
                     const uint8_t *message, size_t count, uint8_t *tag);

/* A sound that is to be a pack with no loops. */
struct own_sound {
    const uint8_t *name;
    size_t name_length;
    uint8_t key_number;
    const uint8_t *value;
    const int16_t *samples;
    size_t sample_count;
};

/* The sound as a pack with a tag. Answers the file's length, or 0 if a sample has no opposite, with nothing written. */
typedef size_t own_seal(const uint8_t *key, const struct own_sound *sound, uint8_t *file);

/* The samples of a pack with a tag. Answers whether the tag is right; if not, nothing is written. */
typedef int own_open(const uint8_t *key, const uint8_t *file, int16_t *samples);

/* Eight bytes as a word, the first of them the most significant, as the records have them. */
static inline uint64_t load_word(const uint8_t *bytes)
{
    uint64_t word;
    memcpy(&word, bytes, sizeof word);
    return __builtin_bswap64(word);
}

static inline void store_word(uint8_t *bytes, uint64_t word)
{
    word = __builtin_bswap64(word);
    memcpy(bytes, &word, sizeof word);
}

#endif
