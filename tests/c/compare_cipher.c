/* Input for the calls of each cipher. */
#include <string.h>

#include "calls.h"
#include "families.h"
#include "faults.h"
#include "model.h"
#include "random.h"

/* The longest record and key of a cipher: lengths go beyond, so each cipher is lent those of the others too. */
enum { STREAM_MOST = 6000, RECORD_MOST = 48, KEY_MOST = 16 };
enum { TAG_BYTES = 8 };

/* The ciphers have the same calls, and each family goes through them: this is the one that it is at. */
static unsigned which;
static const struct model_cipher *cipher;

static void with_each_cipher(void (*family)(void)) {
    for (which = 0; which < MODEL_CIPHERS; which++) {
        cipher = &model_ciphers[which];
        family();
    }
}

static void make_with(faults set) {
    size_t key_length = has(set, 1) ? wrong_length(cipher->key_bytes) : cipher->key_bytes;
    size_t value_length = has(set, 2) ? wrong_length(cipher->value_bytes) : cipher->value_bytes;
    plan_first(making_call(which), set);
    compare_cipher_make(which, room(enough_but_for(set, cipher->record_bytes)), room(key_length), room(value_length));
}

static void make_ciphers(void) {
    with_each_fault_set(making_call(which), 0, make_with);
    for (size_t length = 0; length <= KEY_MOST + 2; length++) {
        plan_number(length == cipher->key_bytes ? 0 : 1);
        compare_cipher_make(which, room(cipher->record_bytes), room(length), room(cipher->value_bytes));
        plan_number(length == cipher->value_bytes ? 0 : 2);
        compare_cipher_make(which, room(cipher->record_bytes), room(cipher->key_bytes), room(length));
    }
}

void making_ciphers(void) {
    with_each_cipher(make_ciphers);
}

static void encipher_with(faults set) {
    size_t input = random_between(has(set, 19) ? 1 : 0, 80);
    size_t record_length = has(set, 3) ? wrong_length(cipher->record_bytes) : cipher->record_bytes;
    plan_first(enciphering_call(which), set);
    compare_cipher_encipher(which, room(record_length), room(input), room(enough_but_for(set, input)));
}

/* Any bytes of a record's length are one, so the records of these comparisons are noise, spare bits and all. */
static void encipher_under_noise(void) {
    with_each_fault_set(enciphering_call(which), 0, encipher_with);
    for (size_t length = 0; length <= 24; length++) {
        plan_number(0);
        compare_cipher_encipher(which, room(cipher->record_bytes), room(length), room(enough(length)));
    }
}

void enciphering(void) {
    with_each_cipher(encipher_under_noise);
}

static void make_record(uint8_t *record) {
    plan_number(0);
    compare_cipher_make(which, room(cipher->record_bytes), room(cipher->key_bytes), room(cipher->value_bytes));
    memcpy(record, after(0), cipher->record_bytes);
}

/* Enciphers to the output, and leaves the record as the call does. */
static void encipher_on(uint8_t *record, const uint8_t *input, size_t length, uint8_t *output) {
    plan_number(0);
    compare_cipher_encipher(which, run_of(record, cipher->record_bytes), run_of(input, length), room(enough(length)));
    memcpy(record, after(0), cipher->record_bytes);
    memcpy(output, after(2), length);
}

static void take_in_pieces(uint8_t *record, const uint8_t *input, size_t length, size_t piece_most, uint8_t *output) {
    size_t done = 0;
    while (done < length) {
        size_t left = length - done;
        size_t piece = random_between(0, (uint32_t)(left < piece_most ? left : piece_most));
        encipher_on(record, input + done, piece, output + done);
        done += piece;
    }
}

/* A stream in one call, and again cut at random bytes: the same bytes and the same record. */
static void stream_in_pieces(void) {
    static uint8_t input[STREAM_MOST], whole[STREAM_MOST], pieces[STREAM_MOST];
    uint8_t at_once[RECORD_MOST], in_pieces[RECORD_MOST];
    size_t length = random_once_in(8) ? random_between(0, STREAM_MOST) : random_between(0, 200);
    memcpy(input, noise(length), length);
    make_record(at_once);
    memcpy(in_pieces, at_once, cipher->record_bytes);
    encipher_on(at_once, input, length, whole);
    take_in_pieces(in_pieces, input, length, length < 200 ? 40 : length, pieces);
    if (memcmp(whole, pieces, length) != 0) differ("a stream in pieces isn't the stream in one call");
    if (memcmp(at_once, in_pieces, cipher->record_bytes) != 0) differ("a stream in pieces leaves another record");
}

void streams_in_pieces(void) {
    with_each_cipher(stream_in_pieces);
}

static uint8_t damaged[RECORD_MOST];

static void encipher_damaged(void) {
    size_t length = random_below(12);
    plan_number(0);
    compare_cipher_encipher(which, run_of(damaged, cipher->record_bytes), room(length), room(enough(length)));
}

static void damage_cipher(void) {
    make_record(damaged);
    with_each_byte_damaged(damaged, cipher->record_bytes, encipher_damaged);
    for (size_t length = 0; length <= RECORD_MOST + 3; length++) {
        plan_number(length == cipher->record_bytes ? 0 : 3);
        compare_cipher_encipher(which, room(length), room(5), room(5));
    }
}

void damaged_ciphers(void) {
    with_each_cipher(damage_cipher);
}

/* Two lengths of three around this one are wrong, or too short. */
static size_t length_near(size_t right) {
    return right - 1 + random_below(3);
}

static void encipher_random_input(void) {
    for (int i = 0; i < 20; i++) {
        compare_cipher_encipher(which, room(length_near(cipher->record_bytes)), room(random_below(70)),
                                room(random_below(70)));
        compare_cipher_make(which, room(random_below(60)), room(length_near(cipher->key_bytes)),
                            room(length_near(cipher->value_bytes)));
    }
}

void random_cipher_input(void) {
    with_each_cipher(encipher_random_input);
}

/* Tags */

static const struct model_cipher *const tagging = &model_ciphers[MODEL_TRIAD];

static void tag_with(faults set) {
    size_t key_length = has(set, 1) ? wrong_length(tagging->key_bytes) : tagging->key_bytes;
    size_t nonce_length = has(set, 2) ? wrong_length(tagging->value_bytes) : tagging->value_bytes;
    plan_first(TRIAD_TAG, set);
    compare_triad_tag(room(key_length), room(nonce_length), room(random_below(20)), room(random_below(20)),
                      room(enough_but_for(set, TAG_BYTES)));
}

static const uint8_t *tag_of(struct run key, struct run nonce, struct run associated, struct run message) {
    plan_number(0);
    compare_triad_tag(key, nonce, associated, message, room(enough(TAG_BYTES)));
    return after(TAGGED);
}

/* The same bytes, cut at each place into associated data and a message: the library and the model agree on each, and no
 * cut gives the tag of the one before. */
static void tag_each_split_of(size_t length) {
    uint8_t key[KEY_MOST], nonce[KEY_MOST], last[TAG_BYTES];
    const uint8_t *bytes = noise(length);
    memcpy(key, noise(sizeof key), sizeof key);
    memcpy(nonce, noise(sizeof nonce), sizeof nonce);
    for (size_t cut = 0; cut <= length; cut++) {
        const uint8_t *tag = tag_of(run_of(key, tagging->key_bytes), run_of(nonce, tagging->value_bytes),
                                    run_of(bytes, cut), run_of(bytes + cut, length - cut));
        if (cut > 0 && memcmp(tag, last, TAG_BYTES) == 0) differ("two cuts of %zu bytes have the same tag", length);
        memcpy(last, tag, TAG_BYTES);
    }
}

/* Eight bytes may be taken in at once, and those of the length stand between data and message. That is no rule of the
 * paper, so all sizes up to some eights come, in every split. */
void all_splits_of_tagged_bytes(void) {
    for (size_t length = 0; length <= 40; length++) tag_each_split_of(length);
}

/* The length of the associated data in two bytes and more. */
static void tag_long_run(void) {
    size_t associated = random_between(200, 70000), message = random_below(300);
    if (random_once_in(2)) associated = 250 + random_below(12);
    tag_of(room(tagging->key_bytes), room(tagging->value_bytes), room(associated), room(message));
}

void tagging_bytes(void) {
    with_each_fault_set(TRIAD_TAG, 0, tag_with);
    tag_each_split_of(random_below(60));
    if (random_once_in(4)) tag_long_run();
    for (int i = 0; i < 10; i++) {
        compare_triad_tag(room(length_near(tagging->key_bytes)), room(length_near(tagging->value_bytes)),
                          room(random_below(70)), room(random_below(70)), room(random_below(2 * TAG_BYTES)));
    }
}
