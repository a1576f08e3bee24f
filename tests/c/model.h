/*
 * A second, independent reading of the papers in plain C: slow, and as near to their wording as it can be. The drivers
 * hold the library to it. Each call is that of semivrakh.h, with its own prefix.
 */
#ifndef MODEL_H
#define MODEL_H

#include <stdbool.h>
#include <stddef.h>
#include <stdint.h>

#include "semivrakh.h"

/* Why a call says no. The number of each stands in model_rules, so that a test of the test can change one. */
enum model_reason {
    MODEL_BAD_KEY,
    MODEL_BAD_VALUE,
    MODEL_NOT_A_CIPHER,
    MODEL_LONG_NAME,
    MODEL_BAD_NAME,
    MODEL_BAD_KEY_COUNT,
    MODEL_BAD_KEY_NUMBER,
    MODEL_MANY_SAMPLES,
    MODEL_MANY_LOOPS,
    MODEL_BAD_LOOP,
    MODEL_MORE_BYTES,
    MODEL_NO_ROOM,
    MODEL_NO_SESSION,
    MODEL_LONG_SOUND,
    MODEL_NO_TRANSFER,
    MODEL_WRONG_SOUND,
    MODEL_NOT_A_FRAME,
    MODEL_OTHER_SESSION,
    MODEL_IMPOSSIBLE,
    MODEL_OUT_OF_RULE,
    MODEL_CUT_IN_NAME,
    MODEL_CUT_IN_KEY,
    MODEL_CUT_IN_SAMPLES,
    MODEL_CUT_IN_LOOPS,
    MODEL_LOWEST_SAMPLE,
    MODEL_ODD_SAMPLES,
    MODEL_OTHER_LENGTH,
    MODEL_WRONG_TAG,
    MODEL_CUT_IN_TAG,
    MODEL_REASONS
};

/* How far back a register of Trivium or TRIAD is read: `near` and `oldest` go to the output and on to the next
 * register, where the product of the two factors goes too; `own` comes back to the register itself. */
struct model_taps {
    unsigned near, oldest, factor, other_factor, own;
};

enum { MODEL_A, MODEL_B, MODEL_C, MODEL_REGISTERS };

/* Enocoro's small box s4, and the places of b that go through the box S8 and into a. */
enum { MODEL_BOX = 16, MODEL_BOXED = 4 };

struct model_rules {
    struct model_taps taps[MODEL_REGISTERS];
    uint8_t box[MODEL_BOX];
    unsigned boxed[MODEL_BOXED];
    struct model_taps triad_taps[MODEL_REGISTERS];
    unsigned triad_product; /* where b and c are read for the one product of both */
    uint8_t number[MODEL_REASONS];
    size_t lacks_besides; /* what a cut file lacks besides the bytes of the count or body that it ends in */
    int lowest_opened;    /* the lowest sample that opening writes */
    unsigned halvings;    /* how often a sample is halved to be a float */
    bool left_first;      /* whether sample 0 is the left side of its frame, and sample 1 the right */
    size_t tag_compared;  /* how many bytes of a file's tag opening looks at */
    bool loops_tagged;    /* whether the loop section is among the associated data */
};

extern struct model_rules model_rules;

/* Trivium, one bit a step. A register is a window that moves along its sequence of bits; `next` is where the coming bit
 * will stand, so the bit k steps back is bits[next - k]. */
enum { MODEL_WINDOW = 4096 };

struct model_register {
    unsigned next;
    uint8_t bits[MODEL_WINDOW];
};

struct model_trivium {
    struct model_register registers[MODEL_REGISTERS];
};

void model_trivium_load(struct model_trivium *trivium, const uint8_t key[10], const uint8_t value[10]);
void model_trivium_step(struct model_trivium *trivium);
void model_trivium_warm_up(struct model_trivium *trivium);
unsigned model_trivium_output(const struct model_trivium *trivium);
uint8_t model_trivium_next_byte(struct model_trivium *trivium);
/* The bit k steps back of a register, 1 being the newest. */
unsigned model_trivium_bit(const struct model_trivium *trivium, int which, unsigned k);
unsigned model_width(int which);
void model_trivium_read_record(struct model_trivium *trivium, const uint8_t *record);
void model_trivium_write_record(uint8_t *record, const struct model_trivium *trivium);

/* Enocoro-128v2, one byte a round. */
struct model_enocoro {
    uint8_t a[2], b[32];
};

/* Steps a) to c) of its beginning; step e) once, which moves the counter on as well; and all of d) and e). */
void model_enocoro_load(struct model_enocoro *enocoro, const uint8_t key[16], const uint8_t value[8]);
void model_enocoro_blank_round(struct model_enocoro *enocoro, uint8_t *counter);
void model_enocoro_warm_up(struct model_enocoro *enocoro);
uint8_t model_enocoro_next_byte(struct model_enocoro *enocoro);
uint8_t model_enocoro_s8(uint8_t x);
/* A record is a and then b. */
void model_enocoro_read_record(struct model_enocoro *enocoro, const uint8_t *record);
void model_enocoro_write_record(uint8_t *record, const struct model_enocoro *enocoro);

/* TRIAD, one bit a step. Registers are arrays of bits with the paper's own indices, from 1, the newest bit, on. */
struct model_triad {
    uint8_t a[81], b[89], c[89];
};

/* TRIAD-SC up to the first byte of its keystream, and that byte and on. */
void model_triad_start(struct model_triad *triad, const uint8_t key[16], const uint8_t nonce[12]);
uint8_t model_triad_next_byte(struct model_triad *triad);
void model_triad_read_record(struct model_triad *triad, const uint8_t *record);
void model_triad_write_record(uint8_t *record, const struct model_triad *triad);
/* TRIAD-MAC: the tag, of 8 bytes. */
void model_triad_mac(uint8_t *tag, const uint8_t *key, const uint8_t *nonce,
                     const uint8_t *associated, size_t associated_length,
                     const uint8_t *message, size_t message_length);

/* What packs may be under, each in the same words: its lengths, a generator that is started, put into a record and
 * taken out of one, and its tag, if it has one. */
enum { MODEL_TRIVIUM, MODEL_ENOCORO, MODEL_TRIAD, MODEL_CIPHERS };
enum { MODEL_TAG_MOST = 8 };

union model_generator {
    struct model_trivium trivium;
    struct model_enocoro enocoro;
    struct model_triad triad;
};

struct model_cipher {
    const char *name;
    uint8_t key_count; /* what a pack under it says: so many bytes are a key number and an initial value */
    size_t record_bytes, key_bytes, value_bytes;
    size_t keys_at; /* where its four keys begin among all keys */
    size_t tag_bytes; /* of the tag that its packs end with; 0 if they have none */
    /* Up to the first byte of its keystream, and that byte and on. */
    void (*start)(union model_generator *generator, const uint8_t *key, const uint8_t *value);
    uint8_t (*next_byte)(union model_generator *generator);
    void (*read_record)(union model_generator *generator, const uint8_t *record);
    void (*write_record)(uint8_t *record, const union model_generator *generator);
    void (*tag)(uint8_t *tag, const uint8_t *key, const uint8_t *value,
                const uint8_t *associated, size_t associated_length,
                const uint8_t *message, size_t message_length);
};

extern const struct model_cipher model_ciphers[MODEL_CIPHERS];
/* Which of them has this key count; MODEL_CIPHERS if none has it. */
unsigned model_cipher_of(uint32_t key_count);
/* One of its four keys. */
const uint8_t *model_cipher_key(const struct model_cipher *cipher, const uint8_t *keys, size_t key_number);
/* Its generator, started under one of these. */
void model_cipher_start(union model_generator *generator, const struct model_cipher *cipher, const uint8_t *keys,
                        size_t key_number, const uint8_t *value);

/* Numbers of several bytes, the most significant first. */
uint32_t model_number_at(const uint8_t *bytes, size_t count);
void model_write_number(uint8_t *bytes, size_t count, uint32_t number);

uint8_t model_no(enum model_reason reason);
size_t model_blocks(size_t sound_length);
/* Writes the numbers to the front of an answer, or says no if they have no room there. */
uint8_t model_answer(size_t *answer, size_t answer_room, const size_t *numbers, size_t count);

uint8_t model_cipher_make(uint8_t *cipher, size_t cipher_length,
                          const uint8_t *key, size_t key_length,
                          const uint8_t *value, size_t value_length);
uint8_t model_cipher_encipher(uint8_t *cipher, size_t cipher_length,
                              const uint8_t *input, size_t input_length,
                              uint8_t *output, size_t output_length);
uint8_t model_enocoro_make(uint8_t *cipher, size_t cipher_length,
                           const uint8_t *key, size_t key_length,
                           const uint8_t *value, size_t value_length);
uint8_t model_enocoro_encipher(uint8_t *cipher, size_t cipher_length,
                               const uint8_t *input, size_t input_length,
                               uint8_t *output, size_t output_length);
uint8_t model_triad_make(uint8_t *cipher, size_t cipher_length,
                         const uint8_t *key, size_t key_length,
                         const uint8_t *nonce, size_t nonce_length);
uint8_t model_triad_encipher(uint8_t *cipher, size_t cipher_length,
                             const uint8_t *input, size_t input_length,
                             uint8_t *output, size_t output_length);
uint8_t model_triad_tag(const uint8_t *key, size_t key_length,
                        const uint8_t *nonce, size_t nonce_length,
                        const uint8_t *associated, size_t associated_length,
                        const uint8_t *message, size_t message_length,
                        uint8_t *tag, size_t tag_length);
uint8_t model_pack_open(const uint8_t *file, size_t file_length,
                        const uint8_t *keys, size_t keys_length,
                        int16_t *samples, size_t sample_room,
                        size_t *answer, size_t answer_room);
uint8_t model_pack_open_stereo(const uint8_t *file, size_t file_length,
                               const uint8_t *keys, size_t keys_length,
                               float *frames, size_t float_room,
                               size_t *answer, size_t answer_room);
uint8_t model_pack_survey(const uint8_t *file, size_t file_length,
                          size_t *answer, size_t answer_room);
uint8_t model_pack_loops(const uint8_t *file, size_t file_length,
                         uint32_t *loops, size_t loop_room,
                         size_t *loop_numbers);
size_t model_pack_lacks(const uint8_t *file, size_t file_length);
uint8_t model_pack_seal(const uint8_t *name, size_t name_length,
                        const uint8_t *keys, size_t keys_length,
                        uint8_t key_count, uint8_t key_number,
                        const uint8_t *value, size_t value_length,
                        const int16_t *samples, size_t sample_count,
                        const uint32_t *loops, size_t loop_numbers,
                        uint8_t *output, size_t output_length,
                        size_t *file_length);
uint8_t model_sender_make(uint8_t *sender, size_t sender_length,
                          const uint8_t *key, size_t key_length,
                          const uint8_t *pair, size_t pair_length);
uint8_t model_sender_begin(uint8_t *sender, size_t sender_length,
                           const uint8_t *sound, size_t sound_length);
uint8_t model_sender_send(const uint8_t *sender, size_t sender_length,
                          const uint8_t *sound, size_t sound_length,
                          uint8_t *frame, size_t frame_room,
                          size_t *frame_length);
uint8_t model_sender_hear(uint8_t *sender, size_t sender_length,
                          const uint8_t *frame, size_t frame_length);
uint8_t model_sender_status(const uint8_t *sender, size_t sender_length,
                            size_t *answer, size_t answer_room);
uint8_t model_receiver_make(uint8_t *receiver, size_t receiver_length,
                            const uint8_t *key, size_t key_length,
                            const uint8_t *pair, size_t pair_length);
uint8_t model_receiver_hear(uint8_t *receiver, size_t receiver_length,
                            const uint8_t *frame, size_t frame_length,
                            uint8_t *sound, size_t sound_length,
                            uint8_t *answer, size_t answer_room,
                            size_t *answer_length);
uint8_t model_receiver_status(const uint8_t *receiver, size_t receiver_length,
                              size_t *answer, size_t answer_room);

#endif
