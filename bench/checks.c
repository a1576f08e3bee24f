#include "checks.h"

#include "works.h"

#include <string.h>

static uint8_t expected[LARGEST_BYTES];

static void same(const void *left, const void *right, size_t bytes, const char *what)
{
    if (memcmp(left, right, bytes) != 0)
        fail(what);
}

/* ISO/IEC 29192-3, annex B.1. */
static const struct {
    uint8_t key[SEMIVRAKH_ENOCORO_KEY_BYTES], value[SEMIVRAKH_ENOCORO_VALUE_BYTES], keystream[32];
} printed[] = {
    { .keystream = { 0x63, 0xd7, 0xda, 0x6b, 0x55, 0x73, 0x7f, 0xcf, 0x57, 0x34, 0xb6, 0x77, 0x3a, 0xe7, 0x72, 0xe8,
                     0xe6, 0x5c, 0xb3, 0xbd, 0xa0, 0x75, 0xe6, 0xb6, 0x94, 0x1c, 0xe3, 0xe5, 0xca, 0x28, 0x2a, 0x1e } },
    { .value = { 0x00, 0x10, 0x20, 0x30, 0x40, 0x50, 0x60, 0x70 },
      .key = { 0, 1, 2, 3, 4, 5, 6, 7, 8, 9, 10, 11, 12, 13, 14, 15 },
      .keystream = { 0xc8, 0xc8, 0xee, 0x43, 0x3b, 0x0d, 0xc0, 0x40, 0xe5, 0x3b, 0xc5, 0x06, 0xea, 0x21, 0xad, 0x82,
                     0x20, 0x05, 0x88, 0x89, 0xb7, 0xc8, 0x45, 0xb8, 0xfb, 0xbc, 0xfc, 0x26, 0x66, 0xd6, 0x5a, 0xce } },
    { .value = { 0x80, 0x90, 0xa0, 0xb0, 0xc0, 0xd0, 0xe0, 0xf0 },
      .key = { 15, 14, 13, 12, 11, 10, 9, 8, 7, 6, 5, 4, 3, 2, 1, 0 },
      .keystream = { 0xf7, 0x73, 0xf9, 0xb4, 0x3f, 0x1c, 0xb2, 0x3c, 0xe4, 0x19, 0x8f, 0x11, 0x28, 0x89, 0x64, 0xa3,
                     0xe1, 0x20, 0x2e, 0x6d, 0xea, 0x7d, 0xc8, 0x07, 0x7b, 0x5d, 0xb1, 0x5e, 0xcb, 0x67, 0xc8, 0x6e } },
    { .value = { 0x10, 0x00, 0x10, 0x00, 0x10, 0x00, 0x10, 0x00 },
      .key = { 1, 0, 1, 0, 1, 0, 1, 0, 1, 0, 1, 0, 1, 0, 1, 0 },
      .keystream = { 0x6c, 0x1b, 0x26, 0x05, 0xd1, 0x97, 0xf7, 0x9f, 0xd4, 0x60, 0x4d, 0x13, 0x13, 0x93, 0x89, 0x2e,
                     0x29, 0x6d, 0x5d, 0x50, 0xf7, 0xe6, 0x07, 0x10, 0xac, 0x62, 0x56, 0x01, 0xb3, 0xe6, 0x5e, 0xa6 } },
};

/* The own C alone: the library is held to it. */
static void check_own_enocoro(void)
{
    static const uint8_t zeros[sizeof printed->keystream];
    for (size_t at = 0; at < sizeof printed / sizeof *printed; at++) {
        struct own_enocoro own;
        uint8_t keystream[sizeof zeros];
        own_enocoro_make(&own, printed[at].key, printed[at].value);
        own_enocoro_encipher(&own, zeros, keystream, sizeof keystream);
        same(keystream, printed[at].keystream, sizeof keystream,
             "the own C of Enocoro gives another keystream than annex B.1");
    }
}

/* Key and nonce are bytes counted from 0, those of the associated data are 7 apart and those of the message 11, from 0
 * on. The first two are annex A.1 of TRIAD's paper; the others, which end elsewhere in a stride, are of a program that
 * follows the paper bit by bit. */
static const struct {
    size_t associated_count, count;
    uint8_t last_sealed, tag[SEMIVRAKH_TAG_BYTES];
} triad_printed[] = {
    { 0, 0, 0x00, { 0xd1, 0x6d, 0xcc, 0xa6, 0xb3, 0x34, 0xcb, 0x84 } },
    { 1, 1, 0xf5, { 0xd4, 0x1a, 0xf0, 0x01, 0xd9, 0xd7, 0x53, 0x67 } },
    { 3, 0, 0x00, { 0x2e, 0x9d, 0xfb, 0xef, 0x6f, 0xf3, 0x7c, 0x78 } },
    { 0, 5, 0xac, { 0xc2, 0x2e, 0xa3, 0x74, 0x53, 0x08, 0x7e, 0xef } },
    { 13, 21, 0xd9, { 0xd0, 0x7c, 0x89, 0x06, 0x6d, 0x8c, 0x43, 0x5c } },
    { 116, 64, 0x52, { 0xf5, 0x97, 0x71, 0xcd, 0x3e, 0xff, 0x38, 0x9f } },
    { 25, 203, 0xeb, { 0x47, 0x45, 0xc7, 0xe4, 0xf5, 0xa2, 0xb4, 0x6d } },
};

static void fill(uint8_t *bytes, size_t count, unsigned apart)
{
    for (size_t at = 0; at < count; at++)
        bytes[at] = (uint8_t)(apart * at);
}

static void check_own_triad(void)
{
    uint8_t key[SEMIVRAKH_TRIAD_KEY_BYTES], nonce[SEMIVRAKH_TRIAD_NONCE_BYTES], front[256], message[256];
    fill(key, sizeof key, 1);
    fill(nonce, sizeof nonce, 1);
    fill(front, sizeof front, 7);
    fill(message, sizeof message, 11);
    for (size_t at = 0; at < sizeof triad_printed / sizeof *triad_printed; at++) {
        const size_t count = triad_printed[at].count;
        struct own_triad own;
        uint8_t tag[SEMIVRAKH_TAG_BYTES];
        own_triad_make(&own, key, nonce);
        own_triad_encipher(&own, message, sealed, count);
        if (count > 0)
            same(&sealed[count - 1], &triad_printed[at].last_sealed, 1, "the own C of TRIAD enciphers to other bytes");
        own_triad_tag(key, nonce, front, triad_printed[at].associated_count, message, count, tag);
        same(tag, triad_printed[at].tag, sizeof tag, "the own C of TRIAD gives another tag than annex A.1 and beyond");
    }
}

/* A cipher's streams: the library's, and one for each engine of the own C. */
struct streams {
    const struct cipher *cipher;
    uint8_t record[MOST_RECORD_BYTES];
    union own_registers own[MOST_ENGINES];
};

static void same_records(const struct streams *streams)
{
    const struct cipher *cipher = streams->cipher;
    for (size_t engine = 0; engine < cipher->engine_count; engine++) {
        uint8_t record[MOST_RECORD_BYTES];
        cipher->own_record(&streams->own[engine], record);
        same(streams->record, record, cipher->record_bytes, "the library leaves other registers than the own C");
    }
}

/* The next bytes of all streams. */
static void check_next(struct streams *streams, size_t bytes)
{
    const struct cipher *cipher = streams->cipher;
    memset(expected, 0, bytes);
    if (cipher->encipher(streams->record, cipher->record_bytes, plain, bytes, expected, bytes) != SEMIVRAKH_OK)
        fail("the library refused to encipher");
    for (size_t engine = 0; engine < cipher->engine_count; engine++) {
        cipher->engines[engine].encipher(&streams->own[engine], plain, sealed, bytes);
        same(sealed, expected, bytes, "the library enciphers to other bytes than the own C");
    }
    same_records(streams);
}

static void make_streams(struct streams *streams)
{
    const struct cipher *cipher = streams->cipher;
    if (cipher->make(streams->record, cipher->record_bytes, cipher->key, cipher->key_bytes, value, cipher->value_bytes)
        != SEMIVRAKH_OK)
        fail("the library refused to make a cipher");
    for (size_t engine = 0; engine < cipher->engine_count; engine++)
        cipher->own_make(&streams->own[engine], cipher->key, value);
    same_records(streams);
}

/* Every length that ends differently in a stride, and those that are timed. */
static void check_encipher(const struct cipher *cipher)
{
    struct streams streams = { .cipher = cipher };
    make_streams(&streams);
    for (size_t bytes = 0; bytes < SMALLEST_BYTES; bytes++)
        check_next(&streams, bytes);
    for (size_t bytes = SMALLEST_BYTES; bytes <= LARGEST_BYTES; bytes *= 2)
        check_next(&streams, bytes);
}

/* The front of the plain bytes under a cipher's first key and an initial value, by the own C, to `expected`. */
static void expect(const struct cipher *cipher, const uint8_t *initial, size_t bytes)
{
    union own_registers own;
    cipher->own_make(&own, cipher->key, initial);
    cipher->engines[0].encipher(&own, plain, expected, bytes);
}

/* The library's tag of so many bytes against that of each engine. */
static void check_tag(const struct cipher *cipher, size_t bytes)
{
    struct stream stream = stream_of(cipher, bytes), own = stream;
    struct work tag = library_tag(&stream), own_tag = own_tag_work(&own);
    tag.once(tag.with);
    for (own.engine = cipher->engines; own.engine < cipher->engines + cipher->engine_count; own.engine++) {
        if (own.engine->tag == NULL)
            continue;
        own_tag.once(own_tag.with);
        same(stream.tag, own.tag, sizeof own.tag, "the library gives another tag than the own C");
    }
}

static void check_tags(const struct cipher *cipher)
{
    for (size_t bytes = 0; bytes < SMALLEST_BYTES; bytes++)
        check_tag(cipher, bytes);
    for (size_t bytes = SMALLEST_BYTES; bytes <= LARGEST_BYTES; bytes *= 2)
        check_tag(cipher, bytes);
}

/* One bit of the samples is another, and both sides say so. */
static void check_noticed(struct pack *pack)
{
    uint8_t *changed = pack->file + pack->length / 2;
    size_t answer[SEMIVRAKH_OPENED_NUMBERS];
    *changed ^= 1;
    if (pack->engine->open(pack->cipher->key, pack->file, opened))
        fail("the own C does not notice a change");
    if (semivrakh_pack_open(pack->file, pack->length, keys, sizeof keys, opened, SEMIVRAKH_SAMPLES_MOST,
                            answer, SEMIVRAKH_OPENED_NUMBERS) != SEMIVRAKH_WRONG_TAG)
        fail("the library does not notice a change");
    *changed ^= 1;
}

/* A pack with a tag that the library sealed, against each engine: sealed again it is the same, and it opens. */
static void check_own_pack(struct pack *pack)
{
    static uint8_t file[SEMIVRAKH_PACK_MOST];
    const struct cipher *cipher = pack->cipher;
    const size_t length = pack->length;
    struct work seal = own_seal_work(pack), open = own_open_work(pack);
    memcpy(file, pack->file, length);
    for (pack->engine = cipher->engines; pack->engine < cipher->engines + cipher->engine_count; pack->engine++) {
        if (pack->engine->seal == NULL)
            continue;
        memset(pack->file, 0, length);
        seal.once(seal.with);
        if (pack->length != length)
            fail("the library seals to another length than the own C");
        same(pack->file, file, length, "the library seals to another file than the own C");
        memset(opened, 0, sizeof opened);
        open.once(open.with);
        same(opened, samples, SAMPLE_BYTES * pack->sample_count, "the own C opens to other samples");
        check_noticed(pack);
    }
}

/* Opened as stereo, it has the samples that were sealed, each divided by 32,768. */
static void check_frames(struct pack *pack)
{
    struct work open = library_open_stereo(pack);
    memset(frames, 0xff, sizeof frames);
    open.once(open.with);
    for (size_t at = 0; at < pack->sample_count; at++) {
        const float divided = (float)samples[at] / 32768;
        same(&frames[at], &divided, sizeof divided, "a pack opened as stereo has other floats than its samples");
    }
}

static void check_pack(const struct cipher *cipher, size_t sample_bytes)
{
    struct pack *pack = pack_of(cipher, sample_bytes);
    struct work seal = library_seal(pack), open = library_open(pack);
    expect(cipher, value, sample_bytes);
    seal.once(seal.with);
    const size_t no_loops = 1; /* the count of loops */
    const size_t tag = cipher->tag == NULL ? 0 : 1 + SEMIVRAKH_TAG_BYTES; /* a count and a tag, the file's last bytes */
    same(pack->file + pack->length - tag - no_loops - sample_bytes, expected, sample_bytes,
         "a sealed pack's samples are not the own C's bytes");
    memset(opened, 0, sizeof opened);
    open.once(open.with);
    same(opened, samples, sample_bytes, "an opened pack's samples are not those that were sealed");
    check_frames(pack);
    if (cipher->tag != NULL)
        check_own_pack(pack);
}

static uint32_t number(const uint8_t *bytes)
{
    return (uint32_t)bytes[0] << 24 | (uint32_t)bytes[1] << 16 | (uint32_t)bytes[2] << 8 | bytes[3];
}

/* After a transfer: the sound has arrived, in as many rounds as it has blocks and one, and enciphered on the way. */
static void check_transfer(void)
{
    struct work transfer = library_transfer();
    memset(line.received, 0, sizeof line.received);
    transfer.once(transfer.with);
    if (line.sender[SEMIVRAKH_SENDER_PHASE_AT] != SEMIVRAKH_DONE)
        fail("a transfer is not done");
    if (line.rounds != SEMIVRAKH_SOUND_MOST / SEMIVRAKH_BLOCK_BYTES + 1)
        fail("a transfer took another number of rounds than its blocks and one");
    same(line.received, plain, SEMIVRAKH_SOUND_MOST, "another sound arrived than was sent");

    uint8_t session_value[SEMIVRAKH_VALUE_BYTES];
    memcpy(session_value, pair, sizeof pair);
    memcpy(session_value + sizeof pair, line.sender + SEMIVRAKH_SESSION_AT, sizeof session_value - sizeof pair);
    expect(&ciphers[TRIVIUM], session_value, SEMIVRAKH_SOUND_MOST);
    const size_t block_front = SEMIVRAKH_FRAME_MOST - SEMIVRAKH_BLOCK_BYTES;
    same(line.frame + block_front, expected + SEMIVRAKH_SOUND_MOST - SEMIVRAKH_BLOCK_BYTES, SEMIVRAKH_BLOCK_BYTES,
         "the last block on the line is not the own C's bytes");
    if (number(line.receiver + SEMIVRAKH_LENGTH_AT) != SEMIVRAKH_SOUND_MOST)
        fail("the receiver has another length than the sound");
}

static void check_cipher(const struct cipher *cipher)
{
    check_encipher(cipher);
    if (cipher->tag != NULL)
        check_tags(cipher);
    for (size_t bytes = SMALLEST_BYTES; bytes <= LARGEST_PACK_BYTES; bytes *= 2)
        check_pack(cipher, bytes);
}

void check_library(void)
{
    check_own_enocoro();
    check_own_triad();
    for (size_t at = 0; at < CIPHERS; at++)
        check_cipher(&ciphers[at]);
    check_transfer();
}

void check_peer(const struct peer *peer)
{
    static uint8_t back[BARE_BYTES];
    peer->restart();
    peer->encipher(plain, sealed, BARE_BYTES);
    if (memcmp(sealed, plain, BARE_BYTES) == 0)
        fail("a peer's enciphering copies");
    peer->restart();
    peer->encipher(sealed, back, BARE_BYTES);
    same(back, plain, BARE_BYTES, "a peer does not decipher what it enciphered");
}

void check_tag_peer(const struct tag_peer *peer)
{
    static uint8_t back[BARE_BYTES];
    struct letter letter = { associated, ASSOCIATED_BYTES, plain, sealed, BARE_BYTES, { 0 } };
    peer->seal(peer->which, &letter);
    if (memcmp(sealed, plain, BARE_BYTES) == 0)
        fail("a peer's sealing copies");
    letter.input = sealed;
    letter.output = back;
    if (!peer->open(peer->which, &letter))
        fail("a peer finds its own tag wrong");
    same(back, plain, BARE_BYTES, "a peer does not open what it sealed");
    sealed[0] ^= 1;
    if (peer->open(peer->which, &letter))
        fail("a peer does not notice a change");
}
