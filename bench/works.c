#include "works.h"

#include <stdio.h>
#include <stdlib.h>

const uint8_t pair[SEMIVRAKH_PAIR_BYTES] = { 'd', 'e', 's', 'k', ' ', '1' };
static const uint8_t name[] = { 'C', 'h', 'o', 'i', 'r' };

const uint8_t associated[ASSOCIATED_BYTES] = { SEMIVRAKH_NAME_MOST, 'C', 'h', 'o', 'i', 'r' };
uint8_t plain[LARGEST_BYTES];
uint8_t sealed[LARGEST_BYTES];
int16_t samples[SEMIVRAKH_SAMPLES_MOST];
int16_t opened[SEMIVRAKH_SAMPLES_MOST];
float frames[SEMIVRAKH_SAMPLES_MOST];
struct line line;

static struct pack packs[CIPHERS][PACK_SIZES];

void fail(const char *what)
{
    fprintf(stderr, "bench: %s\n", what);
    exit(EXIT_FAILURE);
}

static void accepted(uint8_t no)
{
    if (no != SEMIVRAKH_OK)
        fail("the library refused a call");
}

static void make_once(void *with)
{
    struct stream *stream = with;
    const struct cipher *cipher = stream->cipher;
    accepted(cipher->make(stream->record, cipher->record_bytes, cipher->key, cipher->key_bytes, value,
                          cipher->value_bytes));
}

static void encipher_once(void *with)
{
    struct stream *stream = with;
    accepted(stream->cipher->encipher(stream->record, stream->cipher->record_bytes, plain, stream->bytes,
                                      sealed, stream->bytes));
}

static void make_and_encipher_once(void *stream)
{
    make_once(stream);
    encipher_once(stream);
}

static void tag_once(void *with)
{
    struct stream *stream = with;
    const struct cipher *cipher = stream->cipher;
    accepted(cipher->tag(cipher->key, cipher->key_bytes, value, cipher->value_bytes, associated, sizeof associated,
                         plain, stream->bytes, stream->tag, sizeof stream->tag));
}

static void encipher_and_tag_once(void *stream)
{
    make_and_encipher_once(stream);
    tag_once(stream);
}

static void own_encipher_once(void *with)
{
    struct stream *stream = with;
    stream->engine->encipher(&stream->registers, plain, sealed, stream->bytes);
}

static void own_tag_once(void *with)
{
    struct stream *stream = with;
    stream->engine->tag(stream->cipher->key, value, associated, sizeof associated, plain, stream->bytes, stream->tag);
}

static void open_once(void *with)
{
    const struct pack *pack = with;
    size_t answer[SEMIVRAKH_OPENED_NUMBERS];
    accepted(semivrakh_pack_open(pack->file, pack->length, keys, sizeof keys, opened, SEMIVRAKH_SAMPLES_MOST,
                                 answer, SEMIVRAKH_OPENED_NUMBERS));
}

static void open_stereo_once(void *with)
{
    const struct pack *pack = with;
    size_t answer[SEMIVRAKH_OPENED_NUMBERS];
    accepted(semivrakh_pack_open_stereo(pack->file, pack->length, keys, sizeof keys, frames, SEMIVRAKH_SAMPLES_MOST,
                                        answer, SEMIVRAKH_OPENED_NUMBERS));
}

static void seal_once(void *with)
{
    struct pack *pack = with;
    const struct cipher *cipher = pack->cipher;
    accepted(semivrakh_pack_seal(name, sizeof name, keys, sizeof keys, cipher->number, KEY_NUMBER,
                                 value, cipher->value_bytes, samples, pack->sample_count, NULL, 0,
                                 pack->file, sizeof pack->file, &pack->length));
}

static void own_open_once(void *with)
{
    const struct pack *pack = with;
    if (!pack->engine->open(pack->cipher->key, pack->file, opened))
        fail("the own C finds a wrong tag");
}

static void own_seal_once(void *with)
{
    struct pack *pack = with;
    const struct own_sound sound = { name, sizeof name, KEY_NUMBER, value, samples, pack->sample_count };
    pack->length = pack->engine->seal(pack->cipher->key, &sound, pack->file);
}

static int under_way(void)
{
    uint8_t phase = line.sender[SEMIVRAKH_SENDER_PHASE_AT];
    return phase == SEMIVRAKH_OPENING || phase == SEMIVRAKH_SENDING;
}

static void undisturbed_round(void)
{
    size_t frame_length, answer_length;
    accepted(semivrakh_sender_send(line.sender, sizeof line.sender, plain, SEMIVRAKH_SOUND_MOST,
                                   line.frame, sizeof line.frame, &frame_length));
    accepted(semivrakh_receiver_hear(line.receiver, sizeof line.receiver, line.frame, frame_length,
                                     line.received, sizeof line.received,
                                     line.answer, sizeof line.answer, &answer_length));
    accepted(semivrakh_sender_hear(line.sender, sizeof line.sender, line.answer, answer_length));
}

static void transfer_once(void *nothing)
{
    (void)nothing;
    accepted(semivrakh_sender_begin(line.sender, sizeof line.sender, plain, SEMIVRAKH_SOUND_MOST));
    for (line.rounds = 0; under_way(); line.rounds++)
        undisturbed_round();
}

static void fill_buffers(void)
{
    uint32_t state = 1;
    for (size_t at = 0; at < sizeof plain; at++) {
        state = state * 1664525 + 1013904223;
        plain[at] = (uint8_t)(state >> 24);
    }
    for (size_t at = 0; at < SEMIVRAKH_SAMPLES_MOST; at++)
        samples[at] = (int16_t)(plain[2 * at] << 8 | plain[2 * at + 1]);
}

static void make_ends(void)
{
    const uint8_t *key = ciphers[TRIVIUM].key;
    accepted(semivrakh_sender_make(line.sender, sizeof line.sender, key, SEMIVRAKH_KEY_BYTES, pair, sizeof pair));
    accepted(semivrakh_receiver_make(line.receiver, sizeof line.receiver, key, SEMIVRAKH_KEY_BYTES, pair, sizeof pair));
}

static void seal_packs(const struct cipher *cipher)
{
    for (size_t bytes = SMALLEST_BYTES; bytes <= LARGEST_PACK_BYTES; bytes *= 2) {
        struct pack *pack = pack_of(cipher, bytes);
        pack->cipher = cipher;
        pack->sample_count = bytes / SAMPLE_BYTES;
        seal_once(pack);
    }
}

void prepare(void)
{
    fill_buffers();
    make_ends();
    for (size_t at = 0; at < CIPHERS; at++)
        seal_packs(&ciphers[at]);
}

struct stream stream_of(const struct cipher *cipher, size_t bytes)
{
    struct stream stream = { .cipher = cipher, .bytes = bytes, .engine = cipher->engines };
    make_once(&stream);
    cipher->own_make(&stream.registers, cipher->key, value);
    return stream;
}

struct pack *pack_of(const struct cipher *cipher, size_t sample_bytes)
{
    struct pack *pack = packs[cipher - ciphers];
    for (size_t bytes = SMALLEST_BYTES; bytes < sample_bytes; bytes *= 2)
        pack++;
    pack->engine = cipher->engines;
    return pack;
}

struct work library_encipher(struct stream *stream) { return (struct work){ encipher_once, stream }; }

struct work library_make(struct stream *stream) { return (struct work){ make_once, stream }; }

struct work library_make_and_encipher(struct stream *stream) { return (struct work){ make_and_encipher_once, stream }; }

struct work library_tag(struct stream *stream) { return (struct work){ tag_once, stream }; }

struct work library_encipher_and_tag(struct stream *stream) { return (struct work){ encipher_and_tag_once, stream }; }

struct work library_open(struct pack *pack) { return (struct work){ open_once, pack }; }

struct work library_open_stereo(struct pack *pack) { return (struct work){ open_stereo_once, pack }; }

struct work library_seal(struct pack *pack) { return (struct work){ seal_once, pack }; }

struct work library_transfer(void) { return (struct work){ transfer_once, NULL }; }

struct work own_encipher_work(struct stream *stream) { return (struct work){ own_encipher_once, stream }; }

struct work own_tag_work(struct stream *stream) { return (struct work){ own_tag_once, stream }; }

struct work own_open_work(struct pack *pack) { return (struct work){ own_open_once, pack }; }

struct work own_seal_work(struct pack *pack) { return (struct work){ own_seal_once, pack }; }
