/* The works that are timed, each over buffers that are filled before. A call that is refused ends the program. */
#ifndef WORKS_H
#define WORKS_H

#include "ciphers.h"
#include "timing.h"

enum {
    BARE_BYTES = 32768, /* what the rows of ratios encipher */
    SMALLEST_BYTES = 64,
    LARGEST_BYTES = 1 << 20,
    SAMPLE_BYTES = 2,
    LARGEST_PACK_BYTES = SAMPLE_BYTES * SEMIVRAKH_SAMPLES_MOST, /* of samples */
    PACK_SIZES = 10 /* SMALLEST_BYTES, doubled up to LARGEST_PACK_BYTES */
};

_Static_assert(SMALLEST_BYTES << (PACK_SIZES - 1) == LARGEST_PACK_BYTES, "one pack size for each doubling");

/* Of a pack with a name of 32 bytes and eight loops: its sections but the samples, which are the most it can have. */
enum { ASSOCIATED_BYTES = 116 };

_Static_assert(ASSOCIATED_BYTES == SEMIVRAKH_PACK_MOST - LARGEST_PACK_BYTES - 1 - SEMIVRAKH_TAG_BYTES,
               "the longest pack is these, the samples and the tag section");

extern const uint8_t pair[SEMIVRAKH_PAIR_BYTES];

extern const uint8_t associated[ASSOCIATED_BYTES];
extern uint8_t plain[LARGEST_BYTES];
extern uint8_t sealed[LARGEST_BYTES];
extern int16_t samples[SEMIVRAKH_SAMPLES_MOST]; /* the front of `plain` as sound */
extern int16_t opened[SEMIVRAKH_SAMPLES_MOST];
extern float frames[SEMIVRAKH_SAMPLES_MOST]; /* of two floats each, so half as many */

/* So many bytes at a time under one cipher. Library and own C each go on in a stream of their own from call to call; a
 * tag is of all of them anew. */
struct stream {
    const struct cipher *cipher;
    size_t bytes;
    const struct engine *engine; /* of the own C */
    uint8_t record[MOST_RECORD_BYTES];
    union own_registers registers;
    uint8_t tag[SEMIVRAKH_TAG_BYTES];
};

struct pack {
    const struct cipher *cipher;
    const struct engine *engine; /* of the own C, if packs have a tag */
    size_t sample_count;
    size_t length;
    uint8_t file[SEMIVRAKH_PACK_MOST];
};

/* The two ends of the link and what is between them. */
struct line {
    uint8_t sender[SEMIVRAKH_SENDER_BYTES];
    uint8_t receiver[SEMIVRAKH_RECEIVER_BYTES];
    uint8_t frame[SEMIVRAKH_FRAME_MOST];
    uint8_t answer[SEMIVRAKH_ANSWER_MOST];
    size_t rounds; /* of the last transfer */
    uint8_t received[SEMIVRAKH_SOUND_MOST];
};

extern struct line line;

/* Ends the program with what went wrong. */
_Noreturn void fail(const char *what);

/* Fills the buffers, makes both ends of the link, and seals a pack of each size under each cipher. */
void prepare(void);

/* A stream from its first byte on, by the cipher's first engine. */
struct stream stream_of(const struct cipher *cipher, size_t bytes);

/* The cipher's pack with so many bytes of samples, one of the PACK_SIZES, by the cipher's first engine. */
struct pack *pack_of(const struct cipher *cipher, size_t sample_bytes);

/* What a work is given must live as long as it. */
struct work library_encipher(struct stream *stream);
struct work library_make(struct stream *stream);
struct work library_make_and_encipher(struct stream *stream);
struct work library_tag(struct stream *stream);
struct work library_encipher_and_tag(struct stream *stream); /* from key and nonce on: all of an authenticated cipher */
struct work library_open(struct pack *pack);
struct work library_open_stereo(struct pack *pack);
struct work library_seal(struct pack *pack);
struct work library_transfer(void);
struct work own_encipher_work(struct stream *stream);
struct work own_tag_work(struct stream *stream);
struct work own_open_work(struct pack *pack);
struct work own_seal_work(struct pack *pack);

#endif
