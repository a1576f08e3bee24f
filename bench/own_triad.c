#include "own_triad.h"

enum { PERMUTATION_UPDATES = 1024, UPDATES_A_STRIDE = 64, STRIDE_BYTES = 8 };

/* How many bits of a register stand in its word 1, and how many below them are spare. */
enum { A_OLDER_BITS = 80 - 64, B_OLDER_BITS = 88 - 64, C_OLDER_BITS = 88 - 64 };

enum { NONCE_BYTES = 12, COUNT_BYTES = 7, TAG_BYTES = 8 };

/* How much of a body is deciphered before it is read as samples. */
enum { CHUNK_BYTES = 1024 };

enum { LOWEST_SAMPLE = -32767 };

/* Up to eight bytes as a word, the first of them the least significant, as the keystream and a message have them. */
static uint64_t load_bytes(const uint8_t *bytes, size_t count)
{
    uint64_t word = 0;
    memcpy(&word, bytes, count);
    return word;
}

static void store_bytes(uint8_t *bytes, uint64_t word, size_t count) { memcpy(bytes, &word, count); }

/* The 64 bits of a register that the next 64 updates read at one place, which is counted from 1 as in the paper. The
 * first of them is the lowest. */
static uint64_t tap(uint64_t older, uint64_t newer, int place)
{
    return newer << (place - 64) | older >> (128 - place);
}

/* 64 updates, which take a message's bits from the lowest on. No tap reaches a bit that comes in on the way, nor a
 * spare bit, so nothing has to be masked here. */
static inline uint64_t stride(struct own_triad *t, uint64_t message)
{
    uint64_t t1 = tap(t->a1, t->a0, 68) ^ tap(t->a1, t->a0, 80) ^ (tap(t->b1, t->b0, 85) & tap(t->c1, t->c0, 85));
    uint64_t t2 = t->b0 ^ tap(t->b1, t->b0, 88);
    uint64_t t3 = tap(t->c1, t->c0, 68) ^ tap(t->c1, t->c0, 88);
    uint64_t new_a = t3 ^ (tap(t->c1, t->c0, 77) & tap(t->c1, t->c0, 87)) ^ tap(t->a1, t->a0, 74) ^ message;
    uint64_t new_b = t1 ^ (tap(t->a1, t->a0, 73) & tap(t->a1, t->a0, 79)) ^ tap(t->b1, t->b0, 66) ^ message;
    uint64_t new_c = t2 ^ (tap(t->b1, t->b0, 65) & tap(t->b1, t->b0, 87)) ^ tap(t->c1, t->c0, 84) ^ message;
    *t = (struct own_triad){ t->a0, new_a, t->b0, new_b, t->c0, new_c };
    return t1 ^ t2 ^ t3;
}

/* A word after fewer updates than 64, from the word before it and the one after all of them. */
static uint64_t between(uint64_t before, uint64_t after, int updates)
{
    return after << (64 - updates) | before >> updates;
}

/* The updates of fewer bytes than eight. The word that comes out is that of all 64. */
static uint64_t part(struct own_triad *t, uint64_t message, size_t count)
{
    struct own_triad before = *t;
    uint64_t word = stride(t, message);
    int updates = 8 * (int)count;
    if (count == 0)
        *t = before;
    else
        *t = (struct own_triad){
            between(before.a1, before.a0, updates), between(before.a0, t->a0, updates),
            between(before.b1, before.b0, updates), between(before.b0, t->b0, updates),
            between(before.c1, before.c0, updates), between(before.c0, t->c0, updates),
        };
    return word;
}

/* The bit at a place of a register, as the lowest; what stands above it is for the caller to drop. */
static uint64_t bit(uint64_t older, int place) { return older >> (128 - place); }

/* One update, with no message. Every tap but b's first lies in an older word. */
static unsigned step(struct own_triad *t)
{
    uint64_t t1 = bit(t->a1, 68) ^ bit(t->a1, 80) ^ (bit(t->b1, 85) & bit(t->c1, 85));
    uint64_t t2 = t->b0 ^ bit(t->b1, 88);
    uint64_t t3 = bit(t->c1, 68) ^ bit(t->c1, 88);
    uint64_t new_a = t3 ^ (bit(t->c1, 77) & bit(t->c1, 87)) ^ bit(t->a1, 74);
    uint64_t new_b = t1 ^ (bit(t->a1, 73) & bit(t->a1, 79)) ^ bit(t->b1, 66);
    uint64_t new_c = t2 ^ (bit(t->b1, 65) & bit(t->b1, 87)) ^ bit(t->c1, 84);
    *t = (struct own_triad){
        between(t->a1, t->a0, 1), between(t->a0, new_a, 1),
        between(t->b1, t->b0, 1), between(t->b0, new_b, 1),
        between(t->c1, t->c0, 1), between(t->c0, new_c, 1),
    };
    return (t1 ^ t2 ^ t3) & 1;
}

/* The paper's permutation. Its first update takes a bit, which tells tags from keystream. */
static void permute(struct own_triad *t, uint64_t first)
{
    stride(t, first);
    for (int done = UPDATES_A_STRIDE; done < PERMUTATION_UPDATES; done += UPDATES_A_STRIDE)
        stride(t, 0);
}

static struct own_triad made(const uint8_t *key, const uint8_t *nonce, uint64_t first)
{
    const uint8_t a[16] = { 0xfe, key[0], [8] = nonce[0], key[4], 0xff, key[3], 0xff, key[2], 0xff, key[1] };
    struct own_triad t = {
        load_word(a), load_word(a + 8),
        load_bytes(nonce + 1, 3) << (64 - B_OLDER_BITS), load_bytes(nonce + 4, 8),
        load_bytes(key + 5, 3) << (64 - C_OLDER_BITS), load_bytes(key + 8, 8),
    };
    permute(&t, first);
    return t;
}

void own_triad_make(void *cipher, const uint8_t *key, const uint8_t *value)
{
    *(struct own_triad *)cipher = made(key, value, 0);
}

void own_triad_encipher(void *cipher, const uint8_t *input, uint8_t *output, size_t count)
{
    struct own_triad t = *(struct own_triad *)cipher; /* a copy, so that it can stay in the processor's registers */
    size_t at = 0, few = count % STRIDE_BYTES;
    for (; at < count - few; at += STRIDE_BYTES)
        store_bytes(output + at, load_bytes(input + at, STRIDE_BYTES) ^ stride(&t, 0), STRIDE_BYTES);
    store_bytes(output + at, load_bytes(input + at, few) ^ part(&t, 0, few), few);
    *(struct own_triad *)cipher = t;
}

void own_triad_encipher_by_bits(void *cipher, const uint8_t *input, uint8_t *output, size_t count)
{
    struct own_triad t = *(struct own_triad *)cipher;
    for (size_t at = 0; at < count; at++) {
        unsigned keystream = 0;
        for (int bits = 0; bits < 8; bits++)
            keystream |= step(&t) << bits;
        output[at] = (uint8_t)(input[at] ^ keystream);
    }
    *(struct own_triad *)cipher = t;
}

static uint64_t highest(uint64_t word, int bits) { return word >> (64 - bits) << (64 - bits); }

void own_triad_record(const void *cipher, uint8_t *record)
{
    const struct own_triad *t = cipher;
    store_word(record, highest(t->a1, A_OLDER_BITS));
    store_word(record + 8, t->a0);
    store_word(record + 16, highest(t->b1, B_OLDER_BITS));
    store_word(record + 24, t->b0);
    store_word(record + 32, highest(t->c1, C_OLDER_BITS));
    store_word(record + 40, t->c0);
}

/* Bytes taken into a tag. */
static void absorb(struct own_triad *tag, const uint8_t *bytes, size_t count)
{
    struct own_triad t = *tag; /* a copy, as above */
    size_t at = 0, few = count % STRIDE_BYTES;
    for (; at < count - few; at += STRIDE_BYTES)
        stride(&t, load_bytes(bytes + at, STRIDE_BYTES));
    part(&t, load_bytes(bytes + at, few), few);
    *tag = t;
}

static void absorb_length(struct own_triad *tag, size_t associated_count)
{
    uint8_t bytes[STRIDE_BYTES];
    store_bytes(bytes, associated_count, STRIDE_BYTES);
    absorb(tag, bytes, COUNT_BYTES);
}

/* Bytes that stand enciphered, deciphered on their way into a tag, and stored nowhere. */
static void absorb_under(struct own_triad *tag, struct own_triad cipher, const uint8_t *bytes, size_t count)
{
    struct own_triad t = *tag;
    size_t at = 0, few = count % STRIDE_BYTES;
    for (; at < count - few; at += STRIDE_BYTES)
        stride(&t, load_bytes(bytes + at, STRIDE_BYTES) ^ stride(&cipher, 0));
    part(&t, load_bytes(bytes + at, few) ^ stride(&cipher, 0), few);
    *tag = t;
}

static uint64_t closed(struct own_triad tag)
{
    permute(&tag, 1);
    return stride(&tag, 0);
}

void own_triad_tag(const uint8_t *key, const uint8_t *value, const uint8_t *associated, size_t associated_count,
                   const uint8_t *message, size_t count, uint8_t *tag)
{
    struct own_triad t = made(key, value, 1);
    absorb(&t, associated, associated_count);
    absorb_length(&t, associated_count);
    absorb(&t, message, count);
    store_bytes(tag, closed(t), TAG_BYTES);
}

/* Where the parts of a file begin: the loop section with its count, and so the tag section. */
struct places {
    size_t nonce, body, loops, tag;
};

static struct places places_of(size_t name_length, size_t sample_count, size_t loop_count)
{
    size_t nonce = 1 + name_length + 2, body = nonce + NONCE_BYTES + 4, loops = body + 2 * sample_count;
    return (struct places){ nonce, body, loops, loops + 1 + 8 * loop_count };
}

/* The same from the file's own counts. */
static struct places places_in(const uint8_t *file)
{
    uint32_t count;
    memcpy(&count, file + places_of(file[0], 0, 0).body - sizeof count, sizeof count);
    count = __builtin_bswap32(count);
    return places_of(file[0], count, file[places_of(file[0], count, 0).loops]);
}

/* The tag of a file whose body stands there enciphered: all else before the tag section is associated data. */
static uint64_t tag_of_file(const uint8_t *key, const uint8_t *file, struct places at)
{
    const uint8_t *nonce = file + at.nonce;
    struct own_triad t = made(key, nonce, 1);
    absorb(&t, file, at.body);
    absorb(&t, file + at.loops, at.tag - at.loops);
    absorb_length(&t, at.body + at.tag - at.loops);
    absorb_under(&t, made(key, nonce, 0), file + at.body, at.loops - at.body);
    return closed(t);
}

/* All samples are looked at, whatever is found: so the compiler takes many at a time. */
static int has_no_opposite(const int16_t *samples, size_t count)
{
    int16_t found = 0;
    for (size_t i = 0; i < count; i++)
        found |= samples[i] < LOWEST_SAMPLE;
    return found;
}

/* Samples as words, the most significant byte first. */
static void write_words(uint8_t *bytes, const int16_t *samples, size_t count)
{
    for (size_t i = 0; i < count; i++) {
        bytes[2 * i] = (uint8_t)((uint16_t)samples[i] >> 8);
        bytes[2 * i + 1] = (uint8_t)samples[i];
    }
}

/* And back; the one word that has no opposite is read as its neighbour. */
static void read_words(int16_t *samples, const uint8_t *bytes, size_t count)
{
    for (size_t i = 0; i < count; i++) {
        int16_t sample = (int16_t)(bytes[2 * i] << 8 | bytes[2 * i + 1]);
        samples[i] = sample <= LOWEST_SAMPLE ? LOWEST_SAMPLE : sample;
    }
}

static void write_front(uint8_t *file, const struct own_sound *sound, struct places at)
{
    uint32_t count = __builtin_bswap32((uint32_t)sound->sample_count);
    file[0] = (uint8_t)sound->name_length;
    memcpy(file + 1, sound->name, sound->name_length);
    file[at.nonce - 2] = 1 + NONCE_BYTES;
    file[at.nonce - 1] = sound->key_number;
    memcpy(file + at.nonce, sound->value, NONCE_BYTES);
    memcpy(file + at.body - sizeof count, &count, sizeof count);
}

size_t own_triad_seal(const uint8_t *key, const struct own_sound *sound, uint8_t *file)
{
    if (has_no_opposite(sound->samples, sound->sample_count))
        return 0;
    struct places at = places_of(sound->name_length, sound->sample_count, 0);
    struct own_triad cipher = made(key, sound->value, 0);
    write_front(file, sound, at);
    write_words(file + at.body, sound->samples, sound->sample_count);
    own_triad_encipher(&cipher, file + at.body, file + at.body, at.loops - at.body);
    file[at.loops] = 0;
    file[at.tag] = TAG_BYTES;
    store_bytes(file + at.tag + 1, tag_of_file(key, file, at), TAG_BYTES);
    return at.tag + 1 + TAG_BYTES;
}

/* A body deciphered chunk by chunk, and each read as samples. */
static void read_body(struct own_triad cipher, const uint8_t *body, size_t count, int16_t *samples)
{
    uint8_t chunk[CHUNK_BYTES];
    for (size_t at = 0; at < count; at += CHUNK_BYTES) {
        size_t size = count - at < CHUNK_BYTES ? count - at : CHUNK_BYTES;
        own_triad_encipher(&cipher, body + at, chunk, size);
        read_words(samples + at / 2, chunk, size / 2);
    }
}

int own_triad_open(const uint8_t *key, const uint8_t *file, int16_t *samples)
{
    struct places at = places_in(file);
    if (tag_of_file(key, file, at) != load_bytes(file + at.tag + 1, TAG_BYTES))
        return 0;
    read_body(made(key, file + at.nonce, 0), file + at.body, at.loops - at.body, samples);
    return 1;
}
