/* Packs: opening as a reader that goes through the file front to back, sealing as a writer that does the same. */
#include <string.h>

#include "model.h"

enum { KEYS_BYTES = 4 * 10 + 4 * 16 + 4 * 16, KEYS = 4, LOOP_BYTES = 8 };
/* Of a file with a tag, all sections but the samples' and the tag's, and the sample count. */
enum { ASSOCIATED_MOST = (1 + 32) + (1 + 13) + 4 + (1 + 8 * LOOP_BYTES) };
enum { BODY_MOST = 2 * SEMIVRAKH_SAMPLES_MOST };

/* Where the reader stands, and the first thing that it found wrong. */
struct reader {
    const uint8_t *file;
    size_t length, at;
    enum model_reason cut; /* what is wrong if the file ends inside the section that is being read */
    uint8_t refusal;
    size_t lacks; /* if that is it, how much isn't there of what was to be taken */
};

static void refuse(struct reader *reader, enum model_reason reason) {
    if (reader->refusal == 0) reader->refusal = model_no(reason);
}

/* The next bytes of the file, or NULL if they aren't all there. */
static const uint8_t *take(struct reader *reader, size_t count) {
    if (reader->refusal != 0) return NULL;
    size_t left = reader->length - reader->at;
    if (left < count) {
        refuse(reader, reader->cut);
        reader->lacks = count - left + model_rules.lacks_besides;
        return NULL;
    }
    reader->at += count;
    return reader->file + reader->at - count;
}

static uint32_t take_count(struct reader *reader, size_t bytes) {
    const uint8_t *count = take(reader, bytes);
    return count == NULL ? 0 : model_number_at(count, bytes);
}

static bool name_byte_allowed(uint8_t byte) {
    return byte >= 32 && byte <= 126;
}

static bool loop_allowed(uint32_t start, uint32_t end, size_t samples) {
    return start < end && end <= samples;
}

static void read_name(struct reader *reader, size_t *length, size_t *at) {
    reader->cut = MODEL_CUT_IN_NAME;
    *length = take_count(reader, 1);
    if (*length > SEMIVRAKH_NAME_MOST) refuse(reader, MODEL_LONG_NAME);
    *at = reader->at;
    const uint8_t *name = take(reader, *length);
    for (size_t i = 0; name != NULL && i < *length; i++) {
        if (!name_byte_allowed(name[i])) refuse(reader, MODEL_BAD_NAME);
    }
}

/* The cipher by its key count; NULL if it is that of none. */
static const struct model_cipher *cipher_of(uint32_t key_count) {
    unsigned which = model_cipher_of(key_count);
    return which < MODEL_CIPHERS ? &model_ciphers[which] : NULL;
}

static void read_key(struct reader *reader, const struct model_cipher **cipher, size_t *key_number, size_t *value_at) {
    reader->cut = MODEL_CUT_IN_KEY;
    uint32_t count = take_count(reader, 1);
    *cipher = cipher_of(count);
    if (*cipher == NULL) refuse(reader, MODEL_BAD_KEY_COUNT);
    const uint8_t *body = take(reader, count);
    if (body == NULL) return;
    *key_number = body[0];
    *value_at = reader->at - (*cipher)->value_bytes;
    if (*key_number >= KEYS) refuse(reader, MODEL_BAD_KEY_NUMBER);
}

static void read_samples(struct reader *reader, size_t *count, const uint8_t **enciphered) {
    reader->cut = MODEL_CUT_IN_SAMPLES;
    *count = take_count(reader, 4);
    if (*count > SEMIVRAKH_SAMPLES_MOST) refuse(reader, MODEL_MANY_SAMPLES);
    *enciphered = take(reader, 2 * *count);
}

static void read_loops(struct reader *reader, size_t samples, size_t *count, size_t *at) {
    reader->cut = MODEL_CUT_IN_LOOPS;
    *count = take_count(reader, 1);
    if (*count > SEMIVRAKH_LOOPS_MOST) refuse(reader, MODEL_MANY_LOOPS);
    *at = reader->at;
    const uint8_t *loops = take(reader, LOOP_BYTES * *count);
    for (size_t i = 0; loops != NULL && i < *count; i++) {
        const uint8_t *loop = loops + LOOP_BYTES * i;
        if (!loop_allowed(model_number_at(loop, 4), model_number_at(loop + 4, 4), samples)) {
            refuse(reader, MODEL_BAD_LOOP);
        }
    }
}

/* The fifth section, which only some ciphers' files have. Its count is that of the tag, or it is no tag section. */
static void read_tag(struct reader *reader, const struct model_cipher *cipher, const uint8_t **tag) {
    *tag = NULL;
    if (reader->refusal != 0 || cipher->tag_bytes == 0) return;
    reader->cut = MODEL_CUT_IN_TAG;
    if (take_count(reader, 1) != cipher->tag_bytes) refuse(reader, MODEL_CUT_IN_TAG);
    *tag = take(reader, cipher->tag_bytes);
}

/* What a file says of itself: the seven numbers by the header's index, its cipher, where its samples stand, and its
 * tag, if it has one. If it is cut, what it lacks. */
struct pack {
    size_t numbers[SEMIVRAKH_OPENED_NUMBERS];
    const struct model_cipher *cipher;
    const uint8_t *enciphered, *tag;
    size_t lacks;
};

/* The whole file. Answers the first thing wrong with it, or 0. */
static uint8_t read_pack(struct pack *pack, const uint8_t *file, size_t file_length) {
    struct reader reader = {.file = file, .length = file_length};
    size_t *numbers = pack->numbers, *samples = &numbers[SEMIVRAKH_OPENED_SAMPLES];
    read_name(&reader, &numbers[SEMIVRAKH_OPENED_NAME_LENGTH], &numbers[SEMIVRAKH_OPENED_NAME_AT]);
    read_key(&reader, &pack->cipher, &numbers[SEMIVRAKH_OPENED_KEY], &numbers[SEMIVRAKH_OPENED_VALUE_AT]);
    read_samples(&reader, samples, &pack->enciphered);
    read_loops(&reader, *samples, &numbers[SEMIVRAKH_OPENED_LOOPS], &numbers[SEMIVRAKH_OPENED_LOOPS_AT]);
    read_tag(&reader, pack->cipher, &pack->tag);
    if (reader.at != file_length) refuse(&reader, MODEL_MORE_BYTES);
    pack->lacks = reader.lacks;
    return reader.refusal;
}

uint8_t model_pack_survey(const uint8_t *file, size_t file_length, size_t *answer, size_t answer_room) {
    struct pack pack;
    uint8_t no = read_pack(&pack, file, file_length);
    if (no != 0) return no;
    return model_answer(answer, answer_room, pack.numbers, SEMIVRAKH_OPENED_NUMBERS);
}

uint8_t model_pack_loops(const uint8_t *file, size_t file_length,
                         uint32_t *loops, size_t loop_room,
                         size_t *loop_numbers) {
    struct pack pack;
    uint8_t no = read_pack(&pack, file, file_length);
    if (no != 0) return no;
    size_t count = 2 * pack.numbers[SEMIVRAKH_OPENED_LOOPS];
    if (loop_room < count) return model_no(MODEL_NO_ROOM);
    const uint8_t *bytes = file + pack.numbers[SEMIVRAKH_OPENED_LOOPS_AT];
    for (size_t i = 0; i < count; i++) loops[i] = model_number_at(bytes + 4 * i, 4);
    *loop_numbers = count;
    return 0;
}

size_t model_pack_lacks(const uint8_t *file, size_t file_length) {
    struct pack pack;
    read_pack(&pack, file, file_length);
    return pack.lacks;
}

/* Two plain bytes as a signed word: from 32,768 on, the numbers below zero. */
static int signed_word(unsigned high, unsigned low) {
    int word = (int)(256 * high + low);
    return word >= 32768 ? word - 65536 : word;
}

/* What is put out is negated, and the lowest word has no opposite: it is read as the next one. */
static int16_t sample_of(int word) {
    return (int16_t)(word < model_rules.lowest_opened ? model_rules.lowest_opened : word);
}

/* The tag of a file's sections, under its key, for its plain samples. Name, key, sample count and loops stand in the
 * file as they are tagged, the first three before the samples and the loops behind them. */
static void tag_of(uint8_t *tag, const struct model_cipher *cipher, const uint8_t *key, const uint8_t *value,
                   const uint8_t *file, size_t samples_at, size_t sample_count, size_t loop_count,
                   const uint8_t *plain) {
    uint8_t associated[ASSOCIATED_MOST];
    size_t behind = model_rules.loops_tagged ? 1 + LOOP_BYTES * loop_count : 0;
    memcpy(associated, file, samples_at);
    memcpy(associated + samples_at, file + samples_at + 2 * sample_count, behind);
    cipher->tag(tag, key, value, associated, samples_at + behind, plain, 2 * sample_count);
}

/* A file without a tag has none that is wrong. */
static bool tag_agrees(const struct pack *pack, const uint8_t *file, const uint8_t *keys, const uint8_t *plain) {
    uint8_t tag[MODEL_TAG_MOST];
    const size_t *numbers = pack->numbers;
    if (pack->tag == NULL) return true;
    tag_of(tag, pack->cipher, model_cipher_key(pack->cipher, keys, numbers[SEMIVRAKH_OPENED_KEY]),
           file + numbers[SEMIVRAKH_OPENED_VALUE_AT], file, (size_t)(pack->enciphered - file),
           numbers[SEMIVRAKH_OPENED_SAMPLES], numbers[SEMIVRAKH_OPENED_LOOPS], plain);
    return memcmp(tag, pack->tag, model_rules.tag_compared) == 0;
}

static void decipher(uint8_t *plain, const struct pack *pack, const uint8_t *file, const uint8_t *keys) {
    union model_generator generator;
    model_cipher_start(&generator, pack->cipher, keys, pack->numbers[SEMIVRAKH_OPENED_KEY],
                       file + pack->numbers[SEMIVRAKH_OPENED_VALUE_AT]);
    for (size_t i = 0; i < 2 * pack->numbers[SEMIVRAKH_OPENED_SAMPLES]; i++) {
        plain[i] = pack->enciphered[i] ^ pack->cipher->next_byte(&generator);
    }
}

/* What is wrong with a file that is to be opened, but for the room; otherwise 0, and its plain samples are known. */
static uint8_t open_body(struct pack *pack, const uint8_t *file, size_t file_length, const uint8_t *keys,
                         size_t keys_length, uint8_t plain[BODY_MOST]) {
    if (keys_length != KEYS_BYTES) return model_no(MODEL_BAD_KEY);
    uint8_t no = read_pack(pack, file, file_length);
    if (no != 0) return no;
    decipher(plain, pack, file, keys);
    return tag_agrees(pack, file, keys, plain) ? 0 : model_no(MODEL_WRONG_TAG);
}

/* The numbers, if there is room for them and for the sound. */
static uint8_t answer_opened(const struct pack *pack, size_t sound_room, size_t *answer, size_t answer_room) {
    if (sound_room < pack->numbers[SEMIVRAKH_OPENED_SAMPLES]) return model_no(MODEL_NO_ROOM);
    return model_answer(answer, answer_room, pack->numbers, SEMIVRAKH_OPENED_NUMBERS);
}

static int16_t sample_at(const uint8_t *plain, size_t index) {
    return sample_of(signed_word(plain[2 * index], plain[2 * index + 1]));
}

uint8_t model_pack_open(const uint8_t *file, size_t file_length,
                        const uint8_t *keys, size_t keys_length,
                        int16_t *samples, size_t sample_room,
                        size_t *answer, size_t answer_room) {
    static uint8_t plain[BODY_MOST];
    struct pack pack;
    uint8_t no = open_body(&pack, file, file_length, keys, keys_length, plain);
    if (no == 0) no = answer_opened(&pack, sample_room, answer, answer_room);
    if (no != 0) return no;
    for (size_t i = 0; i < pack.numbers[SEMIVRAKH_OPENED_SAMPLES]; i++) samples[i] = sample_at(plain, i);
    return 0;
}

/* A sample, halved 15 times, in the 32 bits that IEEE 754 has for it; nothing is divided here. First the sign; then the
 * place of the magnitude's highest one, less the halvings and over a bias of 127; then, in 23 bits, what stands below
 * that one, which itself isn't written. Zero has no highest one, and all its bits are zeros. */
static uint32_t float_of(int sample) {
    uint32_t sign = sample < 0 ? 1 : 0, magnitude = (uint32_t)(sample < 0 ? -sample : sample), place = 15;
    if (magnitude == 0) return 0;
    while (magnitude >> place == 0) place--;
    uint32_t exponent = 127 + place - model_rules.halvings;
    uint32_t fraction = (magnitude << (23 - place)) - ((uint32_t)1 << 23);
    return sign << 31 | exponent << 23 | fraction;
}

enum { LEFT, RIGHT, CHANNELS };

uint8_t model_pack_open_stereo(const uint8_t *file, size_t file_length,
                               const uint8_t *keys, size_t keys_length,
                               float *frames, size_t float_room,
                               size_t *answer, size_t answer_room) {
    static uint8_t plain[BODY_MOST];
    struct pack pack;
    uint8_t no = open_body(&pack, file, file_length, keys, keys_length, plain);
    if (no != 0) return no;
    size_t count = pack.numbers[SEMIVRAKH_OPENED_SAMPLES];
    if (count % CHANNELS != 0) return model_no(MODEL_ODD_SAMPLES);
    no = answer_opened(&pack, float_room, answer, answer_room);
    if (no != 0) return no;
    for (size_t frame = 0; frame < count / CHANNELS; frame++) {
        uint32_t sides[CHANNELS];
        sides[model_rules.left_first ? LEFT : RIGHT] = float_of(sample_at(plain, CHANNELS * frame));
        sides[model_rules.left_first ? RIGHT : LEFT] = float_of(sample_at(plain, CHANNELS * frame + 1));
        memcpy(frames + CHANNELS * frame, sides, sizeof sides);
    }
    return 0;
}

static bool name_allowed(const uint8_t *name, size_t length) {
    for (size_t i = 0; i < length; i++) {
        if (!name_byte_allowed(name[i])) return false;
    }
    return true;
}

static bool samples_allowed(const int16_t *samples, size_t count) {
    for (size_t i = 0; i < count; i++) {
        if (samples[i] == -32768) return false;
    }
    return true;
}

static bool loops_allowed(const uint32_t *loops, size_t numbers, size_t samples) {
    for (size_t i = 0; i < numbers; i += 2) {
        if (!loop_allowed(loops[i], loops[i + 1], samples)) return false;
    }
    return true;
}

struct writer {
    uint8_t *output;
    size_t at;
};

static void put_number(struct writer *writer, size_t bytes, uint32_t number) {
    model_write_number(writer->output + writer->at, bytes, number);
    writer->at += bytes;
}

static void put_bytes(struct writer *writer, const uint8_t *bytes, size_t count) {
    for (size_t i = 0; i < count; i++) put_number(writer, 1, bytes[i]);
}

uint8_t model_pack_seal(const uint8_t *name, size_t name_length,
                        const uint8_t *keys, size_t keys_length,
                        uint8_t key_count, uint8_t key_number,
                        const uint8_t *value, size_t value_length,
                        const int16_t *samples, size_t sample_count,
                        const uint32_t *loops, size_t loop_numbers,
                        uint8_t *output, size_t output_length,
                        size_t *file_length) {
    if (keys_length != KEYS_BYTES) return model_no(MODEL_BAD_KEY);
    if (name_length > SEMIVRAKH_NAME_MOST) return model_no(MODEL_LONG_NAME);
    if (!name_allowed(name, name_length)) return model_no(MODEL_BAD_NAME);
    const struct model_cipher *cipher = cipher_of(key_count);
    if (cipher == NULL) return model_no(MODEL_BAD_KEY_COUNT);
    if (value_length != cipher->value_bytes) return model_no(MODEL_BAD_VALUE);
    if (key_number >= KEYS) return model_no(MODEL_BAD_KEY_NUMBER);
    if (sample_count > SEMIVRAKH_SAMPLES_MOST) return model_no(MODEL_MANY_SAMPLES);
    if (!samples_allowed(samples, sample_count)) return model_no(MODEL_LOWEST_SAMPLE);
    if (loop_numbers > 2 * SEMIVRAKH_LOOPS_MOST || loop_numbers % 2 != 0) return model_no(MODEL_MANY_LOOPS);
    if (!loops_allowed(loops, loop_numbers, sample_count)) return model_no(MODEL_BAD_LOOP);
    size_t length = (1 + name_length) + (1u + key_count) + (4 + 2 * sample_count) + (1 + 4 * loop_numbers);
    if (cipher->tag_bytes > 0) length += 1 + cipher->tag_bytes;
    if (output_length < length) return model_no(MODEL_NO_ROOM);

    static uint8_t plain[BODY_MOST];
    for (size_t i = 0; i < sample_count; i++) {
        unsigned word = samples[i] < 0 ? (unsigned)(samples[i] + 65536) : (unsigned)samples[i];
        model_write_number(plain + 2 * i, 2, word);
    }
    struct writer writer = {.output = output};
    put_number(&writer, 1, (uint32_t)name_length);
    put_bytes(&writer, name, name_length);
    put_number(&writer, 1, key_count);
    put_number(&writer, 1, key_number);
    put_bytes(&writer, value, value_length);
    put_number(&writer, 4, (uint32_t)sample_count);
    size_t samples_at = writer.at;
    union model_generator generator;
    model_cipher_start(&generator, cipher, keys, key_number, value);
    for (size_t i = 0; i < 2 * sample_count; i++) put_number(&writer, 1, plain[i] ^ cipher->next_byte(&generator));
    put_number(&writer, 1, (uint32_t)(loop_numbers / 2));
    for (size_t i = 0; i < loop_numbers; i++) put_number(&writer, 4, loops[i]);
    if (cipher->tag_bytes > 0) {
        uint8_t tag[MODEL_TAG_MOST];
        tag_of(tag, cipher, model_cipher_key(cipher, keys, key_number), value, output, samples_at, sample_count,
               loop_numbers / 2, plain);
        put_number(&writer, 1, (uint32_t)cipher->tag_bytes);
        put_bytes(&writer, tag, cipher->tag_bytes);
    }
    *file_length = writer.at;
    return 0;
}
