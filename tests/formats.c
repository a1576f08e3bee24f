/*
 * Holds the worked examples of docs/FORMATS.md to the library. Standard input has a line for each block of the paper,
 * its label and its bytes in hex; keys, values and sounds are among them, so the library starts from what the paper
 * says. Files and frames are read back as the paper has them. Rows of two tables come as labels of no bytes. Prints
 * what differs, and how many cases there were.
 */
#include <stdbool.h>
#include <stdio.h>
#include <stdlib.h>
#include <string.h>

#include "semivrakh.h"
#include "semivrakh_words.h"

enum { BLOCKS_MOST = 300, BYTES_MOST = 192, LINE_MOST = 1024, SOUND_BYTES = 65 };

struct block {
    char label[LINE_MOST];
    uint8_t bytes[BYTES_MOST];
    size_t length;
    bool used;
};

static struct block blocks[BLOCKS_MOST];
static size_t block_count;
static unsigned cases, wrong;

/* Reading the paper's blocks */

static void stop(const char *why, const char *where) {
    fprintf(stderr, "formats: %s: %s\n", why, where);
    exit(2);
}

static void read_block(char *line) {
    if (block_count == BLOCKS_MOST) stop("too many blocks", line);
    struct block *block = &blocks[block_count++];
    char *hex = strchr(line, ':');
    if (hex == NULL) stop("no label", line);
    *hex++ = '\0';
    snprintf(block->label, sizeof block->label, "%s", line);
    for (char *end;; hex = end) {
        unsigned long byte = strtoul(hex, &end, 16);
        if (end == hex) break;
        if (byte > UINT8_MAX || block->length == BYTES_MOST) stop("no byte, or too many", line);
        block->bytes[block->length++] = (uint8_t)byte;
    }
    if (strspn(hex, " \n") != strlen(hex)) stop("no hex", line);
}

static void fault(const char *label, const char *what) {
    wrong++;
    fprintf(stderr, "formats, %s: %s\n", label, what);
}

/* A label that the paper lacks is a fault, and stands for no bytes. */
static const struct block *block(const char *label) {
    static const struct block none;
    for (size_t i = 0; i < block_count; i++) {
        if (strcmp(blocks[i].label, label) != 0) continue;
        blocks[i].used = true;
        return &blocks[i];
    }
    cases++;
    fault(label, "the paper has no such block");
    return &none;
}

/* Comparing */

static void show(const char *whose, const uint8_t *bytes, size_t length) {
    fprintf(stderr, "  %s:", whose);
    for (size_t i = 0; i < length; i++) fprintf(stderr, " %02X", bytes[i]);
    fputc('\n', stderr);
}

static void same(const char *label, const uint8_t *made, size_t length) {
    const struct block *said = block(label);
    cases++;
    if (said->length == length && memcmp(said->bytes, made, length) == 0) return;
    fault(label, "the paper and the library differ");
    show("the paper", said->bytes, said->length);
    show("the library", made, length);
}

static void holds(const char *label, bool so) {
    cases++;
    if (!so) fault(label, "the library does not do what the paper says");
}

static void accepted(const char *label, uint8_t no) {
    holds(label, no == SEMIVRAKH_OK);
}

/* The ciphers, each with the labels of its example */

struct cipher {
    uint8_t key_count;
    uint8_t (*make)(uint8_t *, size_t, const uint8_t *, size_t, const uint8_t *, size_t);
    uint8_t (*encipher)(uint8_t *, size_t, const uint8_t *, size_t, uint8_t *, size_t);
    size_t record_bytes, key_bytes, keys_at, loops_at; /* the loops' place is that of the example's file */
    const char *value, *record, *keystream, *enciphered, *file, *cut;
};

static const struct cipher trivium = {
    SEMIVRAKH_TRIVIUM, semivrakh_cipher_make, semivrakh_cipher_encipher,
    SEMIVRAKH_CIPHER_BYTES, SEMIVRAKH_KEY_BYTES, 0, 26,
    "pack value", "record cipher", "pack keystream", "pack enciphered", "pack file", "pack cut to"
};

static const struct cipher enocoro = {
    SEMIVRAKH_ENOCORO, semivrakh_enocoro_make, semivrakh_enocoro_encipher,
    SEMIVRAKH_ENOCORO_BYTES, SEMIVRAKH_ENOCORO_KEY_BYTES, SEMIVRAKH_ENOCORO_KEYS_AT, 24,
    "enocoro value", "record enocoro", "enocoro keystream", "enocoro enciphered", "enocoro file", "enocoro cut to"
};

static const struct cipher triad = {
    SEMIVRAKH_TRIAD, semivrakh_triad_make, semivrakh_triad_encipher,
    SEMIVRAKH_TRIAD_BYTES, SEMIVRAKH_TRIAD_KEY_BYTES, SEMIVRAKH_TRIAD_KEYS_AT, 28,
    "triad value", "record triad", "triad keystream", "triad enciphered", "triad file", "triad cut to"
};

static void make(const char *label, const struct cipher *cipher, uint8_t record[BYTES_MOST], const uint8_t *key,
                 const uint8_t *value, size_t value_length) {
    accepted(label, cipher->make(record, BYTES_MOST, key, cipher->key_bytes, value, value_length));
}

/* Bytes under the keystream from its beginning. */
static void covered(const char *label, const struct cipher *cipher, const uint8_t *key, const struct block *value,
                    const uint8_t *plain, size_t length) {
    uint8_t record[BYTES_MOST], output[BYTES_MOST];
    make(label, cipher, record, key, value->bytes, value->length);
    accepted(label, cipher->encipher(record, cipher->record_bytes, plain, length, output, sizeof output));
    same(label, output, length);
}

/* A block of the standard's annex: a key of Enocoro, an initial value, and the first bytes of their keystream. */
static void annex(const char *label) {
    enum { KEY = SEMIVRAKH_ENOCORO_KEY_BYTES, VALUE = SEMIVRAKH_ENOCORO_VALUE_BYTES, STREAM = 32 };
    static const uint8_t zeros[STREAM];
    uint8_t record[BYTES_MOST], made[KEY + VALUE + STREAM];
    const struct block *said = block(label);
    memcpy(made, said->bytes, KEY + VALUE);
    make(label, &enocoro, record, made, made + KEY, VALUE);
    accepted(label, enocoro.encipher(record, enocoro.record_bytes, zeros, STREAM, made + KEY + VALUE, STREAM));
    same(label, made, sizeof made);
}

/* A block of TRIAD's annex: a key, a nonce, and so many zeros as the message under the keystream, with their tag behind
 * them, where the associated data are as many zeros. */
static void annex_tag(const char *label, size_t length) {
    enum { KEY = SEMIVRAKH_TRIAD_KEY_BYTES, NONCE = SEMIVRAKH_TRIAD_NONCE_BYTES, MOST = 1 };
    static const uint8_t zeros[MOST];
    uint8_t record[BYTES_MOST], made[KEY + NONCE + MOST + SEMIVRAKH_TAG_BYTES];
    uint8_t *key = made, *nonce = key + KEY, *covered_zeros = nonce + NONCE, *tag = covered_zeros + length;
    const struct block *said = block(label);
    memcpy(made, said->bytes, KEY + NONCE);
    make(label, &triad, record, key, nonce, NONCE);
    accepted(label, triad.encipher(record, triad.record_bytes, zeros, length, covered_zeros, length));
    accepted(label, semivrakh_triad_tag(key, KEY, nonce, NONCE, zeros, length, zeros, length, tag,
                                        SEMIVRAKH_TAG_BYTES));
    same(label, made, KEY + NONCE + length + SEMIVRAKH_TAG_BYTES);
}

static void annex_record(const char *label, const char *of) {
    uint8_t record[BYTES_MOST];
    const struct block *said = block(of);
    make(label, &enocoro, record, said->bytes, said->bytes + enocoro.key_bytes, SEMIVRAKH_ENOCORO_VALUE_BYTES);
    same(label, record, enocoro.record_bytes);
}

static void annex_blocks(void) {
    annex("annex B.1, first");
    annex("annex B.1, second");
    annex("annex B.1, third");
    annex("annex B.1, fourth");
    annex_record("record enocoro of the annex", "annex B.1, fourth");
    annex_tag("annex A.1, first", 0);
    annex_tag("annex A.1, second", 1);
}

/* The pack */

static const uint8_t name[] = {'H', 'i'};
static const int16_t samples[] = {1, -2, 32767};
static const uint32_t loops[] = {0, 3};
enum { KEY_NUMBER = 1, SAMPLES = 3, WORD_BYTES = 2 * SAMPLES };

/* Where the example's key stands among all keys. */
static size_t key_at(const struct cipher *cipher) {
    return cipher->keys_at + KEY_NUMBER * cipher->key_bytes;
}

/* A file of the example's parts, with this sound. Hands back its length. */
static size_t seal(const char *label, uint8_t number, const struct cipher *cipher, uint8_t key_count,
                   const int16_t sound[SAMPLES], uint8_t file[BYTES_MOST]) {
    const struct block *keys = block("pack keys"), *value = block(cipher->value);
    size_t length = 0;
    holds(label, semivrakh_pack_seal(name, sizeof name, keys->bytes, keys->length, key_count, KEY_NUMBER, value->bytes,
                                     value->length, sound, SAMPLES, loops, 2, file, BYTES_MOST, &length) == number);
    return length;
}

static void pack_sealed(const char *label, const struct cipher *cipher, const int16_t sound[SAMPLES]) {
    uint8_t file[BYTES_MOST];
    size_t length = seal(label, SEMIVRAKH_OK, cipher, cipher->key_count, sound, file);
    same(label, file, length);
}

static void opened_with(const char *label, const struct cipher *cipher, const uint8_t *keys, size_t keys_length,
                        const int16_t expected[SAMPLES]) {
    const size_t told[SEMIVRAKH_OPENED_NUMBERS] = {SAMPLES, KEY_NUMBER, 1, sizeof name, 1, 5, cipher->loops_at};
    const struct block *file = block(label);
    int16_t sound[SAMPLES] = {0};
    size_t answer[SEMIVRAKH_OPENED_NUMBERS] = {0};
    accepted(label, semivrakh_pack_open(file->bytes, file->length, keys, keys_length, sound, SAMPLES, answer,
                                        SEMIVRAKH_OPENED_NUMBERS));
    holds(label, memcmp(sound, expected, sizeof sound) == 0 && memcmp(answer, told, sizeof told) == 0);
    holds(label, file->bytes[answer[SEMIVRAKH_OPENED_VALUE_AT] - 2] == cipher->key_count);
}

/* With all keys, and with zeros for all but its own. */
static void pack_opened(const char *label, const struct cipher *cipher, const int16_t expected[SAMPLES]) {
    const struct block *keys = block("pack keys");
    uint8_t own[SEMIVRAKH_KEYS_BYTES] = {0};
    memcpy(own + key_at(cipher), keys->bytes + key_at(cipher), cipher->key_bytes);
    opened_with(label, cipher, keys->bytes, keys->length, expected);
    opened_with(label, cipher, own, sizeof own, expected);
}

/* The lowest word is read as the next, which is what sealing writes; the lowest sample is refused. */
static void lowest_word(void) {
    static const int16_t raised[SAMPLES] = {-32767, -2, 32767}, lowest[SAMPLES] = {-32768, -2, 32767};
    uint8_t file[BYTES_MOST];
    pack_opened("pack lowest word", &trivium, raised);
    pack_opened("pack raised word", &trivium, raised);
    pack_sealed("pack raised word", &trivium, raised);
    seal("pack lowest word", SEMIVRAKH_LOWEST_SAMPLE, &trivium, SEMIVRAKH_TRIVIUM, lowest, file);
    seal("pack lowest word", SEMIVRAKH_LOWEST_SAMPLE, &enocoro, SEMIVRAKH_ENOCORO, lowest, file);
    pack_opened("triad lowest word", &triad, raised);
    pack_opened("triad raised word", &triad, raised);
    pack_sealed("triad raised word", &triad, raised);
    seal("triad lowest word", SEMIVRAKH_LOWEST_SAMPLE, &triad, SEMIVRAKH_TRIAD, lowest, file);
}

/* The front of a cipher's file, of so many bytes, is refused as the paper's table says. */
static void pack_cut_to(const struct cipher *cipher, size_t length) {
    const struct block *file = block(cipher->file);
    size_t answer[SEMIVRAKH_OPENED_NUMBERS];
    uint8_t no = semivrakh_pack_survey(file->bytes, length, answer, SEMIVRAKH_OPENED_NUMBERS);
    size_t missing = semivrakh_pack_lacks(file->bytes, length);
    char label[LINE_MOST];
    snprintf(label, sizeof label, "%s %zu, refused %d %zu", cipher->cut, length, no, missing);
    same(label, NULL, 0);
}

static void pack_cut(const struct cipher *cipher) {
    const struct block *file = block(cipher->file);
    for (size_t length = 0; length < file->length; length++) pack_cut_to(cipher, length);
    holds(cipher->file, semivrakh_pack_lacks(file->bytes, file->length) == 0);
}

static void pack_refused(const char *label, uint8_t number, size_t missing) {
    const struct block *file = block(label), *keys = block("pack keys");
    int16_t sound[SAMPLES];
    size_t answer[SEMIVRAKH_OPENED_NUMBERS];
    holds(label, semivrakh_pack_open(file->bytes, file->length, keys->bytes, keys->length, sound, SAMPLES, answer,
                                     SEMIVRAKH_OPENED_NUMBERS) == number);
    holds(label, semivrakh_pack_lacks(file->bytes, file->length) == missing);
}

/* A block that is a front of the pack file. */
static void front_shown(const char *label, uint8_t number, size_t missing) {
    const struct block *file = block("pack file"), *front = block(label);
    holds(label, front->length < file->length && memcmp(front->bytes, file->bytes, front->length) == 0);
    pack_refused(label, number, missing);
}

static void fronts_shown(void) {
    front_shown("pack of no bytes", SEMIVRAKH_CUT_IN_NAME, 1);
    front_shown("pack cut in a count", SEMIVRAKH_CUT_IN_SAMPLES, 3);
    front_shown("pack cut in a body", SEMIVRAKH_CUT_IN_SAMPLES, 4);
}

/* The tag of the example: that of the data that the paper names, and these are the file but for its samples and tag. */
static void tag_shown(void) {
    const struct block *value = block(triad.value), *data = block("triad associated"), *words = block("pack words");
    const struct block *file = block(triad.file), *tag = block("triad tag");
    const uint8_t *key = block("pack keys")->bytes + key_at(&triad);
    uint8_t made[SEMIVRAKH_TAG_BYTES];
    accepted(tag->label, semivrakh_triad_tag(key, triad.key_bytes, value->bytes, value->length, data->bytes,
                                             data->length, words->bytes, words->length, made, sizeof made));
    same(tag->label, made, sizeof made);
    size_t loop_section = 1 + 8, front = data->length - loop_section, behind = front + words->length;
    holds(data->label, behind + loop_section + 1 + sizeof made == file->length);
    holds(data->label, memcmp(data->bytes, file->bytes, front) == 0);
    holds(data->label, memcmp(data->bytes + front, file->bytes + behind, loop_section) == 0);
    holds(tag->label, memcmp(made, file->bytes + file->length - sizeof made, sizeof made) == 0);
}

static uint8_t open_stereo(const struct block *file, float *frames, size_t float_room) {
    const struct block *keys = block("pack keys");
    size_t answer[SEMIVRAKH_OPENED_NUMBERS];
    return semivrakh_pack_open_stereo(file->bytes, file->length, keys->bytes, keys->length, frames, float_room, answer,
                                      SEMIVRAKH_OPENED_NUMBERS);
}

/* The example's three samples are no frames. */
static void odd_refused(const struct cipher *cipher) {
    float frames[SAMPLES];
    holds(cipher->file, open_stereo(block(cipher->file), frames, SAMPLES) == SEMIVRAKH_ODD_SAMPLES);
}

/* With a fourth they are two, and the paper has their floats as bytes, in the order in which they stand in memory. */
static void frames_shown(void) {
    float frames[SAMPLES + 1];
    accepted("stereo file", open_stereo(block("stereo file"), frames, SAMPLES + 1));
    same("stereo frames", (const uint8_t *)frames, sizeof frames);
}

/* A file of the example whose tag isn't its own: nobody can tell without keys. */
static void tag_refused(void) {
    static const char label[] = "triad changed";
    const struct block *file = block(label);
    size_t answer[SEMIVRAKH_OPENED_NUMBERS], loop_numbers = 0;
    uint32_t read[2];
    pack_refused(label, SEMIVRAKH_WRONG_TAG, 0);
    accepted(label, semivrakh_pack_survey(file->bytes, file->length, answer, SEMIVRAKH_OPENED_NUMBERS));
    accepted(label, semivrakh_pack_loops(file->bytes, file->length, read, 2, &loop_numbers));
    holds(label, loop_numbers == 2 && memcmp(read, loops, sizeof loops) == 0);
    pack_refused("triad of another count", SEMIVRAKH_CUT_IN_TAG, 0);
}

/* A key count that is no cipher's, in a file and told to sealing. */
static void no_cipher(void) {
    static const char label[] = "pack of no cipher";
    const struct block *file = block(label);
    uint8_t sealed[BYTES_MOST];
    pack_refused(label, SEMIVRAKH_BAD_KEY_COUNT, 0);
    seal(label, SEMIVRAKH_BAD_KEY_COUNT, &enocoro, file->bytes[1 + sizeof name], samples, sealed);
}

static void pack_under(const struct cipher *cipher) {
    static const uint8_t zeros[WORD_BYTES];
    const struct block *value = block(cipher->value), *words = block("pack words");
    const uint8_t *key = block("pack keys")->bytes + key_at(cipher);
    uint8_t record[BYTES_MOST];
    make(cipher->record, cipher, record, key, value->bytes, value->length);
    same(cipher->record, record, cipher->record_bytes);
    covered(cipher->keystream, cipher, key, value, zeros, sizeof zeros);
    covered(cipher->enciphered, cipher, key, value, words->bytes, words->length);
    pack_sealed(cipher->file, cipher, samples);
    pack_opened(cipher->file, cipher, samples);
    odd_refused(cipher);
    pack_cut(cipher);
}

static void pack(void) {
    uint8_t words[WORD_BYTES];
    for (size_t i = 0; i < SAMPLES; i++) {
        words[2 * i] = (uint8_t)((uint16_t)samples[i] >> 8);
        words[2 * i + 1] = (uint8_t)samples[i];
    }
    same("pack words", words, sizeof words);
    pack_under(&trivium);
    pack_under(&enocoro);
    pack_under(&triad);
    tag_shown();
    tag_refused();
    lowest_word();
    frames_shown();
    fronts_shown();
    no_cipher();
}

/* The link */

struct ends {
    uint8_t sender[SEMIVRAKH_SENDER_BYTES], receiver[SEMIVRAKH_RECEIVER_BYTES];
    uint8_t room[SOUND_BYTES];
    size_t room_length;
};

static struct ends begun(const struct block *key, const uint8_t *pair, const struct block *sound, size_t room_length) {
    struct ends ends = {.room_length = room_length};
    accepted("link key", semivrakh_sender_make(ends.sender, sizeof ends.sender, key->bytes, key->length, pair,
                                               SEMIVRAKH_PAIR_BYTES));
    accepted("link key", semivrakh_receiver_make(ends.receiver, sizeof ends.receiver, key->bytes, key->length, pair,
                                                 SEMIVRAKH_PAIR_BYTES));
    accepted("link sound", semivrakh_sender_begin(ends.sender, sizeof ends.sender, sound->bytes, sound->length));
    return ends;
}

/* A round: the frame and its answer are what the paper says, and each end hears them as the paper has them. */
static void round_of(struct ends *ends, const struct block *sound, const char *up, const char *down) {
    uint8_t frame[SEMIVRAKH_FRAME_MOST], answer[SEMIVRAKH_ANSWER_MOST];
    size_t frame_length = 0, answer_length = 0;
    accepted(up, semivrakh_sender_send(ends->sender, sizeof ends->sender, sound->bytes, sound->length, frame,
                                       sizeof frame, &frame_length));
    same(up, frame, frame_length);
    accepted(up, semivrakh_receiver_hear(ends->receiver, sizeof ends->receiver, block(up)->bytes, block(up)->length,
                                         ends->room, ends->room_length, answer, sizeof answer, &answer_length));
    same(down, answer, answer_length);
    accepted(down, semivrakh_sender_hear(ends->sender, sizeof ends->sender, block(down)->bytes, block(down)->length));
}

static bool in_phase(const struct ends *ends, uint8_t phase) {
    return ends->sender[SEMIVRAKH_SENDER_PHASE_AT] == phase;
}

/* The opening again is a repeat, answered as the paper says; with another length it is refused, and nothing changes. */
static void open_again(const struct ends *ends, const char *down) {
    struct ends after = *ends;
    uint8_t answer[SEMIVRAKH_ANSWER_MOST];
    size_t length = 0;
    const struct block *up = block("link opening"), *other = block("link another length");
    accepted(down, semivrakh_receiver_hear(after.receiver, sizeof after.receiver, up->bytes, up->length, after.room,
                                           after.room_length, answer, sizeof answer, &length));
    same(down, answer, length);
    uint8_t no = semivrakh_receiver_hear(after.receiver, sizeof after.receiver, other->bytes, other->length, after.room,
                                         after.room_length, answer, sizeof answer, &length);
    bool kept = memcmp(after.receiver, ends->receiver, sizeof after.receiver) == 0
        && memcmp(after.room, ends->room, sizeof after.room) == 0;
    holds(other->label, no == SEMIVRAKH_OTHER_LENGTH && kept);
}

static void transfer(const struct block *key, const struct block *pair, const struct block *sound) {
    struct ends ends = begun(key, pair->bytes, sound, SOUND_BYTES);
    round_of(&ends, sound, "link opening", "link holds 0");
    open_again(&ends, "link holds 0");
    round_of(&ends, sound, "link block 0", "link holds 1");
    open_again(&ends, "link holds 1");
    same("record sender", ends.sender, sizeof ends.sender);
    same("record receiver", ends.receiver, sizeof ends.receiver);
    round_of(&ends, sound, "link block 1", "link holds 2");
    open_again(&ends, "link holds 2");
    holds("link holds 2", in_phase(&ends, SEMIVRAKH_DONE) && memcmp(ends.room, sound->bytes, SOUND_BYTES) == 0);
}

/* The same sound under another pair name, with a byte too little room. */
static void too_long(const struct block *key, const struct block *sound) {
    static const uint8_t other_pair[SEMIVRAKH_PAIR_BYTES] = {'d', 'e', 's', 'k', '-', '2'};
    struct ends ends = begun(key, other_pair, sound, SOUND_BYTES - 1);
    round_of(&ends, sound, "link opening", "link too long");
    holds("link too long", in_phase(&ends, SEMIVRAKH_REFUSED_TOO_LONG));
}

/* The initial value gives the keystream, and with it both blocks, as one stream. */
static void one_stream(const struct block *key, const struct block *sound) {
    static const uint8_t zeros[SOUND_BYTES];
    enum { HEAD = 8, FIRST = SEMIVRAKH_BLOCK_BYTES };
    const struct block *stream = block("link keystream"), *one = block("link block 0"), *two = block("link block 1");
    covered("link keystream", &trivium, key->bytes, block("link value"), zeros, sizeof zeros);
    bool so = sound->length == SOUND_BYTES && one->length == HEAD + FIRST && two->length == HEAD + 1;
    for (size_t i = 0; so && i < SOUND_BYTES; i++) {
        uint8_t sent = i < FIRST ? one->bytes[HEAD + i] : two->bytes[HEAD];
        so = sent == (sound->bytes[i] ^ stream->bytes[i]);
    }
    holds("link keystream", so);
}

static void link_frames(void) {
    const struct block *key = block("link key"), *pair = block("link pair"), *sound = block("link sound");
    transfer(key, pair, sound);
    too_long(key, sound);
    one_stream(key, sound);
}

/* The numbers for no: the paper's table has a row for each, and no other. */

static void number_told(unsigned number) {
    char label[LINE_MOST];
    snprintf(label, sizeof label, "number %u", number);
    if (number != SEMIVRAKH_OK) same(label, NULL, 0);
}

static void numbers(void) {
#define ROW(number, words, advice) number_told(number);
    SEMIVRAKH_WORDS_TABLE(ROW)
#undef ROW
}

int main(void) {
    char line[LINE_MOST];
    while (fgets(line, sizeof line, stdin) != NULL) read_block(line);
    annex_blocks();
    pack();
    link_frames();
    numbers();
    for (size_t i = 0; i < block_count; i++) {
        if (blocks[i].used) continue;
        cases++;
        fault(blocks[i].label, "nothing here looks at this block");
    }
    printf("formats: %u cases, %u differ\n", cases, wrong);
    return wrong == 0 ? 0 : 1;
}
