/*
 * Looks for branches and addresses that depend on a key or on a sound. Under valgrind's memcheck, secret bytes are
 * marked as never written. Memcheck follows such bytes through every instruction, and reports each conditional jump and
 * each address that is made of them. What a call says in public (its number, lengths, the heads of files and frames, a
 * record's fields) must not be made of them either; what it enciphers must be, or else nothing was followed.
 *
 * One thing of a sound is told in public: whether sealing refuses it for a sample of -32,768. So sealing has one jump
 * for it, after all samples were looked at; of a sound of any length, and with such a sample at any place, there is no
 * second one.
 *
 * Likewise one thing is told of a key and a sound together: whether opening, as samples or as frames, finds the tag of
 * a pack under TRIAD to be theirs. So opening has one jump for that, and its number may be made of it; of a pack of any
 * length, and with a tag that is wrong at any byte, there is no second one, so nobody learns from the time where a
 * guessed tag is right. All else that TRIAD does, it does without a table and without a jump.
 *
 * Enocoro is another matter. Its box S8 is a table that is read at bytes of the state, and so at places that a key
 * says: that address does depend on a key, and how long the reading takes is left to the caches, of which nothing is
 * tested here. Memcheck reports each such read ("use of uninitialised value of size 8"), and then takes what was read
 * for as public as the table is, so behind the box it would lose sight of the key. So while keys are hidden, the table
 * is marked as well: what comes out of it is secret then. The reports of these addresses, in the two functions that
 * read the table, are kept back by secrets.supp, and counted by the script. All else is tested of Enocoro's calls as it
 * is of the others: no jump and no other address depends on a key, and none at all on a sound but the jump for 34.
 *
 * secrets [--broken (branch | address | answer | search | stream | tag)]: prints one line, and before it whatever it
 * found. Exit status 1 if it found anything.
 */
#define _GNU_SOURCE /* for dl_iterate_phdr */
#include <link.h>
#include <stdbool.h>
#include <stdio.h>
#include <string.h>
#include <valgrind/memcheck.h>

#include "model.h"
#include "random.h"
#include "semivrakh.h"

enum { PAIR_AT = 10, HEAD_BYTES = 8, STREAM_MOST = 2000, NAME_BYTES = 5, KEY_NUMBER = 2 };

enum { KEY_MOST = SEMIVRAKH_ENOCORO_KEY_BYTES, VALUE_MOST = SEMIVRAKH_TRIAD_NONCE_BYTES };
enum { RECORD_MOST = SEMIVRAKH_CIPHER_BYTES };

/* A cipher: its number in packs, its lengths, of the tag too if it has one, and its calls. */
struct cipher {
    const char *name;
    uint8_t number;
    size_t key_bytes, value_bytes, record_bytes, tag_bytes;
    const char *make_name, *encipher_name;
    uint8_t (*make)(uint8_t *, size_t, const uint8_t *, size_t, const uint8_t *, size_t);
    uint8_t (*encipher)(uint8_t *, size_t, const uint8_t *, size_t, uint8_t *, size_t);
};

static const struct cipher trivium = {
    "Trivium", SEMIVRAKH_TRIVIUM, SEMIVRAKH_KEY_BYTES, SEMIVRAKH_VALUE_BYTES, SEMIVRAKH_CIPHER_BYTES, 0,
    "semivrakh_cipher_make", "semivrakh_cipher_encipher", semivrakh_cipher_make, semivrakh_cipher_encipher,
};
static const struct cipher enocoro = {
    "Enocoro", SEMIVRAKH_ENOCORO, SEMIVRAKH_ENOCORO_KEY_BYTES, SEMIVRAKH_ENOCORO_VALUE_BYTES, SEMIVRAKH_ENOCORO_BYTES,
    0, "semivrakh_enocoro_make", "semivrakh_enocoro_encipher", semivrakh_enocoro_make, semivrakh_enocoro_encipher,
};
static const struct cipher triad = {
    "TRIAD", SEMIVRAKH_TRIAD, SEMIVRAKH_TRIAD_KEY_BYTES, SEMIVRAKH_TRIAD_NONCE_BYTES, SEMIVRAKH_TRIAD_BYTES,
    SEMIVRAKH_TAG_BYTES, "semivrakh_triad_make", "semivrakh_triad_encipher", semivrakh_triad_make,
    semivrakh_triad_encipher,
};

/* The one that the calls are under now. */
static const struct cipher *under;

/* What is secret in this round of calls. */
static bool keys_hidden, sounds_hidden;
static unsigned calls, faults, errors_before;
static unsigned jumps_allowed; /* in the coming call */
static bool verdict_allowed;   /* the coming call's number may depend on a secret */

static const char *hidden_words(void) {
    return keys_hidden ? "a key" : "a sound";
}

static void fault(const char *call, const char *what) {
    faults++;
    printf("FAILED: %s, under %s: %s %s\n", call, under->name, what, hidden_words());
}

/* Bytes of a new key or sound, marked if they are secret now. */
static void new_bytes(bool hidden, void *bytes, size_t length) {
    random_fill(bytes, length);
    if (hidden) VALGRIND_MAKE_MEM_UNDEFINED(bytes, length);
}

static void new_key(uint8_t *key, size_t length) {
    new_bytes(keys_hidden, key, length);
}

static void new_sound(void *sound, size_t length) {
    new_bytes(sounds_hidden, sound, length);
}

/* Samples that can be sealed, but for one of -32,768 if there is a place for it. */
static void new_samples(int16_t *samples, size_t count, const size_t *lowest_at) {
    random_fill((uint8_t *)samples, 2 * count);
    for (size_t i = 0; i < count; i++) {
        if (samples[i] == INT16_MIN) samples[i] = 0;
    }
    if (lowest_at != NULL) samples[*lowest_at] = INT16_MIN;
    if (sounds_hidden) VALGRIND_MAKE_MEM_UNDEFINED(samples, 2 * count);
}

/* Looks at what memcheck reported since the last look. */
static void look(const char *call) {
    unsigned errors = VALGRIND_COUNT_ERRORS;
    if (errors - errors_before > jumps_allowed) fault(call, "a jump or an address depends on");
    errors_before = errors;
    jumps_allowed = 0;
}

static void public_bytes(const char *call, const void *bytes, size_t length) {
    if (length > 0 && VALGRIND_CHECK_MEM_IS_DEFINED(bytes, length) != 0) fault(call, "what it says depends on");
    errors_before = VALGRIND_COUNT_ERRORS;
}

/* Each of these bytes is made of a secret. */
static void secret_bytes(const char *call, const void *bytes, size_t length) {
    static uint8_t marks[2 * SEMIVRAKH_SAMPLES_MOST];
    (void)VALGRIND_GET_VBITS(bytes, marks, length);
    if (memchr(marks, 0, length) != NULL) fault(call, "a byte that should does not depend on");
}

/* After each call: its number is public, and the one expected. */
static void called(const char *call, uint8_t expected, uint8_t no) {
    calls++;
    look(call);
    if (!verdict_allowed) public_bytes(call, &no, sizeof no);
    verdict_allowed = false;
    VALGRIND_MAKE_MEM_DEFINED(&no, sizeof no);
    if (no == expected) return;
    faults++;
    printf("FAILED: %s, under %s: %d, and not %d, is the answer\n", call, under->name, no, expected);
}

#define CALL(expected, function, ...) called(#function, expected, function(__VA_ARGS__))

/* The table of Enocoro's box */

/* The linker may put its rows in any order, as it does with constants: each is found by what it holds. */
enum { ROWS = 16, ROW_BYTES = 16 };
static const uint8_t *rows[ROWS];

static void find_row(unsigned row, const uint8_t *memory, size_t length) {
    uint8_t wanted[ROW_BYTES];
    for (unsigned i = 0; i < ROW_BYTES; i++) wanted[i] = model_enocoro_s8((uint8_t)(ROW_BYTES * row + i));
    const uint8_t *found = memmem(memory, length, wanted, sizeof wanted);
    if (found != NULL) rows[row] = found;
}

/* Looks through what the program itself only reads. It comes first, and the system's libraries are left out. */
static int find_rows(struct dl_phdr_info *program, size_t size, void *nothing) {
    (void)size;
    (void)nothing;
    for (int i = 0; i < program->dlpi_phnum; i++) {
        const ElfW(Phdr) *segment = &program->dlpi_phdr[i];
        if (segment->p_type != PT_LOAD || (segment->p_flags & PF_R) == 0 || (segment->p_flags & PF_W) != 0) continue;
        const uint8_t *memory = (const uint8_t *)(program->dlpi_addr + segment->p_vaddr);
        for (unsigned row = 0; row < ROWS; row++) find_row(row, memory, segment->p_memsz);
    }
    return 1;
}

static bool find_table(void) {
    dl_iterate_phdr(find_rows, NULL);
    for (unsigned row = 0; row < ROWS; row++) {
        if (rows[row] == NULL) return false;
    }
    return true;
}

/* What is read at a place that a key says is as secret as the key. */
static void hide_table_with_keys(void) {
    for (unsigned row = 0; row < ROWS; row++) {
        if (keys_hidden) VALGRIND_MAKE_MEM_UNDEFINED(rows[row], ROW_BYTES);
        else VALGRIND_MAKE_MEM_DEFINED(rows[row], ROW_BYTES);
    }
}

/* The ciphers */

static void cipher(size_t length) {
    uint8_t key[KEY_MOST], value[VALUE_MOST], record[RECORD_MOST];
    size_t key_bytes = under->key_bytes, value_bytes = under->value_bytes, record_bytes = under->record_bytes;
    static uint8_t input[STREAM_MOST], output[STREAM_MOST];
    new_key(key, key_bytes);
    random_fill(value, value_bytes);
    new_sound(input, length);
    called(under->make_name, 1, under->make(record, record_bytes, key, key_bytes - 1, value, value_bytes));
    called(under->make_name, 0, under->make(record, record_bytes, key, key_bytes, value, value_bytes));
    if (length > 0) {
        called(under->encipher_name, 19, under->encipher(record, record_bytes, input, length, output, length - 1));
    }
    called(under->encipher_name, 0, under->encipher(record, record_bytes, input, length, output, length));
    secret_bytes(under->encipher_name, output, length);
    if (!keys_hidden) public_bytes(under->encipher_name, record, record_bytes);
}

/* The tag of a message and of data, which are hidden with the sounds: each byte of it is made of all bytes of these. */
static void tag(size_t associated_length, size_t message_length) {
    uint8_t key[KEY_MOST], nonce[VALUE_MOST], made[SEMIVRAKH_TAG_BYTES];
    static uint8_t associated[STREAM_MOST], message[STREAM_MOST];
    new_key(key, triad.key_bytes);
    random_fill(nonce, triad.value_bytes);
    new_sound(associated, associated_length);
    new_sound(message, message_length);
    CALL(1, semivrakh_triad_tag, key, triad.key_bytes - 1, nonce, triad.value_bytes, associated, associated_length,
         message, message_length, made, sizeof made);
    CALL(19, semivrakh_triad_tag, key, triad.key_bytes, nonce, triad.value_bytes, associated, associated_length,
         message, message_length, made, sizeof made - 1);
    CALL(0, semivrakh_triad_tag, key, triad.key_bytes, nonce, triad.value_bytes, associated, associated_length,
         message, message_length, made, sizeof made);
    if (keys_hidden || associated_length + message_length > 0) secret_bytes("semivrakh_triad_tag", made, sizeof made);
}

static void tags(void) {
    for (size_t associated = 0; associated <= 20; associated++) tag(associated, 20 - associated);
    for (size_t message = 0; message <= 20; message++) tag(0, message);
    tag(STREAM_MOST, STREAM_MOST);
}

/* Packs */

/* Whether a pack of so many samples has a tag that is made of what is hidden. */
static bool tag_is_hidden(size_t samples) {
    return under->tag_bytes > 0 && (keys_hidden || samples > 0);
}

/* Where the samples of a pack begin. */
static size_t body_at(void) {
    return 1 + NAME_BYTES + 2 + under->value_bytes + 4;
}

/* Of a file, all but its samples and the tag can be read by anybody. */
static void look_at_file(const uint8_t *file, size_t length, size_t samples) {
    size_t behind = body_at() + 2 * samples, tag_at = length - under->tag_bytes;
    public_bytes("semivrakh_pack_seal", file, body_at());
    secret_bytes("semivrakh_pack_seal", file + body_at(), 2 * samples);
    public_bytes("semivrakh_pack_seal", file + behind, tag_at - behind);
    if (tag_is_hidden(samples)) secret_bytes("semivrakh_pack_seal", file + tag_at, under->tag_bytes);
}

/* What a file lacks is public as well. */
static void lacks(const uint8_t *file, size_t length, size_t expected) {
    size_t lack = semivrakh_pack_lacks(file, length);
    calls++;
    look("semivrakh_pack_lacks");
    public_bytes("semivrakh_pack_lacks", &lack, sizeof lack);
    VALGRIND_MAKE_MEM_DEFINED(&lack, sizeof lack);
    if (lack == expected) return;
    faults++;
    printf("FAILED: semivrakh_pack_lacks: %zu, and not %zu, is the answer\n", lack, expected);
}

/* The file cut in its samples: it is told where, by what stands before them. */
static void survey_cut(const uint8_t *file, size_t samples) {
    size_t answer[SEMIVRAKH_OPENED_NUMBERS], cut = body_at() + samples;
    CALL(32, semivrakh_pack_survey, file, cut, answer, SEMIVRAKH_OPENED_NUMBERS);
    lacks(file, cut, samples);
}

/* What is said of a file without its last byte. */
static uint8_t number_of_cut(void) {
    return under->tag_bytes > 0 ? SEMIVRAKH_CUT_IN_TAG : SEMIVRAKH_CUT_IN_LOOPS;
}

/* What a file says of itself is public, and no key is lent for it. */
static void survey(const uint8_t *file, size_t length) {
    size_t answer[SEMIVRAKH_OPENED_NUMBERS], loop_numbers = 0;
    uint32_t loops[2 * SEMIVRAKH_LOOPS_MOST];
    CALL(number_of_cut(), semivrakh_pack_survey, file, length - 1, answer, SEMIVRAKH_OPENED_NUMBERS);
    CALL(0, semivrakh_pack_survey, file, length, answer, SEMIVRAKH_OPENED_NUMBERS);
    public_bytes("semivrakh_pack_survey", answer, sizeof answer);
    CALL(number_of_cut(), semivrakh_pack_loops, file, length - 1, loops, 2 * SEMIVRAKH_LOOPS_MOST, &loop_numbers);
    CALL(0, semivrakh_pack_loops, file, length, loops, 2 * SEMIVRAKH_LOOPS_MOST, &loop_numbers);
    public_bytes("semivrakh_pack_loops", loops, loop_numbers * sizeof *loops);
    lacks(file, length - 1, 1);
    lacks(file, length, 0);
}

/* The coming call seals so many samples, and may tell of them whether one is -32,768. */
static void one_jump_for(size_t samples) {
    jumps_allowed = sounds_hidden && samples > 0 ? 1 : 0;
}

/* The coming call opens a file of so many samples, and may tell of its tag whether it is right. */
static void one_verdict_for(size_t samples) {
    jumps_allowed = tag_is_hidden(samples) ? 1 : 0;
    verdict_allowed = tag_is_hidden(samples);
}

/* What was opened. */
static int16_t opened[SEMIVRAKH_SAMPLES_MOST];
static float frames[SEMIVRAKH_SAMPLES_MOST];

/* Each of these floats is made of a secret: its highest byte, with the sign, is. The lowest is zero for any sample. */
static void secret_frames(size_t samples) {
    static uint8_t marks[sizeof frames];
    (void)VALGRIND_GET_VBITS(frames, marks, samples * sizeof *frames);
    for (size_t end = sizeof *frames; end <= samples * sizeof *frames; end += sizeof *frames) {
        if (marks[end - 1] != 0) continue;
        fault("semivrakh_pack_open_stereo", "a float that should does not depend on");
        return;
    }
}

/* As samples and as frames. That the count is odd, the head of the file says, which anybody can read. */
static void open_pack(const uint8_t *file, size_t length, const uint8_t *keys, size_t samples) {
    size_t answer[SEMIVRAKH_OPENED_NUMBERS], stereo_answer[SEMIVRAKH_OPENED_NUMBERS];
    bool is_odd = samples % 2 == 1;
    VALGRIND_MAKE_MEM_DEFINED(opened, sizeof opened); /* so nothing of an earlier file is taken for this one's */
    VALGRIND_MAKE_MEM_DEFINED(frames, sizeof frames);
    one_verdict_for(samples);
    CALL(0, semivrakh_pack_open, file, length, keys, SEMIVRAKH_KEYS_BYTES, opened, samples, answer,
         SEMIVRAKH_OPENED_NUMBERS);
    public_bytes("semivrakh_pack_open", answer, sizeof answer);
    secret_bytes("semivrakh_pack_open", opened, 2 * samples);
    one_verdict_for(samples);
    CALL(is_odd ? SEMIVRAKH_ODD_SAMPLES : 0, semivrakh_pack_open_stereo, file, length, keys, SEMIVRAKH_KEYS_BYTES,
         frames, samples, stereo_answer, SEMIVRAKH_OPENED_NUMBERS);
    if (is_odd) return;
    public_bytes("semivrakh_pack_open_stereo", stereo_answer, sizeof stereo_answer);
    secret_frames(samples);
}

/* It is refused with this number in both ways, and by no more than the tag's one jump. */
static void refuse_pack(uint8_t number, const uint8_t *file, size_t length, const uint8_t *keys, size_t samples) {
    size_t answer[SEMIVRAKH_OPENED_NUMBERS];
    bool by_tag = number == SEMIVRAKH_WRONG_TAG;
    if (by_tag) one_verdict_for(samples);
    CALL(number, semivrakh_pack_open, file, length, keys, SEMIVRAKH_KEYS_BYTES, opened, samples, answer,
         SEMIVRAKH_OPENED_NUMBERS);
    if (by_tag) one_verdict_for(samples);
    CALL(number, semivrakh_pack_open_stereo, file, length, keys, SEMIVRAKH_KEYS_BYTES, frames, samples, answer,
         SEMIVRAKH_OPENED_NUMBERS);
}

static void open_wrong_tag(uint8_t *file, size_t length, const uint8_t *keys, size_t samples, size_t wrong_at) {
    uint8_t *wrong = file + length - under->tag_bytes + wrong_at, turned = (uint8_t)(1 << wrong_at);
    *wrong ^= turned;
    refuse_pack(SEMIVRAKH_WRONG_TAG, file, length, keys, samples);
    *wrong ^= turned;
}

/* A file whose tag is wrong in one byte: whichever it is, no more is told. Of a large one the first and the last byte
 * are enough. */
static void open_wrong_tags(uint8_t *file, size_t length, const uint8_t *keys, size_t samples) {
    size_t apart = samples < SEMIVRAKH_SAMPLES_MOST ? 1 : under->tag_bytes - 1;
    for (size_t i = 0; i < under->tag_bytes; i += apart) open_wrong_tag(file, length, keys, samples, i);
}

static void pack(size_t samples) {
    static int16_t sound[SEMIVRAKH_SAMPLES_MOST];
    static uint8_t file[SEMIVRAKH_PACK_MOST];
    uint8_t keys[SEMIVRAKH_KEYS_BYTES], value[VALUE_MOST];
    const uint8_t *name = (const uint8_t *)"Choir";
    const uint32_t loops[] = {0, (uint32_t)samples, 0, 1};
    size_t loop_numbers = samples > 0 ? 4 : 0, length = 0;
    new_key(keys, sizeof keys);
    random_fill(value, sizeof value);
    new_samples(sound, samples, NULL);
    one_jump_for(samples);
    CALL(19, semivrakh_pack_seal, name, NAME_BYTES, keys, sizeof keys, under->number, KEY_NUMBER,
         value, under->value_bytes, sound, samples, loops, loop_numbers, file, 20, &length);
    one_jump_for(samples);
    CALL(0, semivrakh_pack_seal, name, NAME_BYTES, keys, sizeof keys, under->number, KEY_NUMBER,
         value, under->value_bytes, sound, samples, loops, loop_numbers, file, sizeof file, &length);
    public_bytes("semivrakh_pack_seal", &length, sizeof length);
    look_at_file(file, length, samples);
    refuse_pack(number_of_cut(), file, length - 1, keys, samples);
    open_wrong_tags(file, length, keys, samples);
    open_pack(file, length, keys, samples);
    survey(file, length);
    if (samples > 0) survey_cut(file, samples);
}

/* A sound that is refused for one sample: where it stands is no more public than the others. */
static void refused_pack(size_t samples, size_t lowest_at) {
    static int16_t sound[SEMIVRAKH_SAMPLES_MOST];
    static uint8_t file[SEMIVRAKH_PACK_MOST];
    uint8_t keys[SEMIVRAKH_KEYS_BYTES], value[VALUE_MOST];
    size_t length = 0;
    new_key(keys, sizeof keys);
    random_fill(value, sizeof value);
    new_samples(sound, samples, &lowest_at);
    one_jump_for(samples);
    CALL(34, semivrakh_pack_seal, NULL, 0, keys, sizeof keys, under->number, KEY_NUMBER, value, under->value_bytes,
         sound, samples, NULL, 0, file, sizeof file, &length);
}

static void refused_packs(void) {
    for (size_t place = 0; place < 20; place++) refused_pack(20, place);
    refused_pack(SEMIVRAKH_SAMPLES_MOST, 0);
    refused_pack(SEMIVRAKH_SAMPLES_MOST, SEMIVRAKH_SAMPLES_MOST - 1);
}

/* The link */

struct ends {
    uint8_t sender[SEMIVRAKH_SENDER_BYTES], receiver[SEMIVRAKH_RECEIVER_BYTES];
    uint8_t room[STREAM_MOST];
    size_t room_length;
};

/* Of a record, all but the key can be read by anybody, and what its end says of it is public. */
static void look_at_records(const struct ends *ends) {
    size_t sender[SEMIVRAKH_SENDER_NUMBERS], receiver[SEMIVRAKH_RECEIVER_NUMBERS];
    CALL(0, semivrakh_sender_status, ends->sender, sizeof ends->sender, sender, SEMIVRAKH_SENDER_NUMBERS);
    public_bytes("semivrakh_sender_status", sender, sizeof sender);
    CALL(0, semivrakh_receiver_status, ends->receiver, sizeof ends->receiver, receiver, SEMIVRAKH_RECEIVER_NUMBERS);
    public_bytes("semivrakh_receiver_status", receiver, sizeof receiver);
    public_bytes("a sender's record", ends->sender + PAIR_AT, sizeof ends->sender - PAIR_AT);
    public_bytes("a receiver's record", ends->receiver + PAIR_AT, sizeof ends->receiver - PAIR_AT);
}

static void make_ends(struct ends *ends) {
    uint8_t key[SEMIVRAKH_KEY_BYTES], pair[SEMIVRAKH_PAIR_BYTES];
    new_key(key, sizeof key);
    random_fill(pair, sizeof pair);
    CALL(0, semivrakh_sender_make, ends->sender, sizeof ends->sender, key, sizeof key, pair, sizeof pair);
    CALL(0, semivrakh_receiver_make, ends->receiver, sizeof ends->receiver, key, sizeof key, pair, sizeof pair);
    look_at_records(ends);
}

/* A round, in which the receiver hears the frame twice: the second time it is no news. An opening that it has taken
 * comes a third time, with another length. */
static void round_of(struct ends *ends, const uint8_t *sound, size_t length) {
    uint8_t frame[SEMIVRAKH_FRAME_MOST], answer[SEMIVRAKH_ANSWER_MOST];
    size_t frame_length = 0, answer_length = 0;
    CALL(0, semivrakh_sender_send, ends->sender, sizeof ends->sender, sound, length, frame, sizeof frame,
         &frame_length);
    public_bytes("semivrakh_sender_send", &frame_length, sizeof frame_length);
    public_bytes("semivrakh_sender_send", frame, HEAD_BYTES);
    if (frame[0] == 2) secret_bytes("semivrakh_sender_send", frame + HEAD_BYTES, frame_length - HEAD_BYTES);
    for (int times = 0; times < 2; times++) {
        CALL(0, semivrakh_receiver_hear, ends->receiver, sizeof ends->receiver, frame, frame_length, ends->room,
             ends->room_length, answer, sizeof answer, &answer_length);
        public_bytes("semivrakh_receiver_hear", &answer_length, sizeof answer_length);
        public_bytes("semivrakh_receiver_hear", answer, answer_length);
    }
    if (frame[0] == 1 && length <= ends->room_length) {
        frame[frame_length - 1] ^= 1;
        CALL(36, semivrakh_receiver_hear, ends->receiver, sizeof ends->receiver, frame, frame_length, ends->room,
             ends->room_length, answer, sizeof answer, &answer_length);
    }
    CALL(0, semivrakh_sender_hear, ends->sender, sizeof ends->sender, answer, answer_length);
    look_at_records(ends);
}

static void transfer(size_t length, size_t room_length) {
    static uint8_t sound[STREAM_MOST];
    struct ends ends = {.room_length = room_length};
    make_ends(&ends);
    new_sound(sound, length);
    CALL(0, semivrakh_sender_begin, ends.sender, sizeof ends.sender, sound, length);
    for (size_t blocks = 0; blocks <= length / SEMIVRAKH_BLOCK_BYTES + 1; blocks++) {
        if (ends.sender[SEMIVRAKH_SENDER_PHASE_AT] < SEMIVRAKH_DONE) round_of(&ends, sound, length);
    }
    if (length <= room_length) secret_bytes("semivrakh_receiver_hear", ends.room, length);
}

/* The calls that have to do with a cipher: lengths at which each loop has no turn, one and many. */
static void calls_under(const struct cipher *cipher_now) {
    under = cipher_now;
    for (size_t length = 0; length <= 40; length++) cipher(length);
    cipher(STREAM_MOST);
    for (size_t samples = 0; samples <= 20; samples++) pack(samples);
    pack(SEMIVRAKH_SAMPLES_MOST);
    refused_packs();
}

/* All calls, with what is hidden now. The link is under Trivium. */
static void all_calls(void) {
    hide_table_with_keys();
    calls_under(&enocoro);
    calls_under(&triad);
    tags();
    calls_under(&trivium);
    for (size_t length = 0; length <= 130; length += 13) transfer(length, length);
    transfer(65, 64);
    transfer(1000, STREAM_MOST);
}

/* The first byte of a keystream of Enocoro. */
static uint8_t keystream_byte(void) {
    uint8_t key[SEMIVRAKH_ENOCORO_KEY_BYTES], record[SEMIVRAKH_ENOCORO_BYTES], byte = 0;
    const uint8_t zeros[SEMIVRAKH_ENOCORO_VALUE_BYTES] = {0};
    new_key(key, sizeof key);
    CALL(0, semivrakh_enocoro_make, record, sizeof record, key, sizeof key, zeros, sizeof zeros);
    CALL(0, semivrakh_enocoro_encipher, record, sizeof record, zeros, 1, &byte, 1);
    return byte;
}

/* The tag of nothing under a key of TRIAD. */
static void tag_of_nothing(uint8_t made[SEMIVRAKH_TAG_BYTES]) {
    uint8_t key[SEMIVRAKH_TRIAD_KEY_BYTES];
    const uint8_t zeros[SEMIVRAKH_TRIAD_NONCE_BYTES] = {0};
    new_key(key, sizeof key);
    CALL(0, semivrakh_triad_tag, key, sizeof key, zeros, sizeof zeros, NULL, 0, NULL, 0, made, SEMIVRAKH_TAG_BYTES);
}

/* What a test of this test does wrong: a loop that takes as long as a key says, a place in a table that a key says, an
 * answer that a key says, where one jump is allowed, a search that stops where it finds something, a jump by what comes
 * out of Enocoro's box, and a tag that is compared up to the first byte that differs, where one jump is allowed. */
static void broken(const char *what) {
    static volatile uint8_t table[256];
    uint8_t key, many_keys[20];
    new_key(&key, sizeof key);
    new_key(many_keys, sizeof many_keys);
    if (strcmp(what, "branch") == 0) {
        for (uint8_t i = 0; i < key; i++) table[0]++;
    }
    if (strcmp(what, "address") == 0) table[key]++;
    if (strcmp(what, "search") == 0) {
        jumps_allowed = 1;
        for (size_t i = 0; i < sizeof many_keys && many_keys[i] != key; i++) table[0]++;
    }
    if (strcmp(what, "stream") == 0 && keystream_byte() > 127) table[0]++;
    if (strcmp(what, "tag") == 0) {
        uint8_t made[SEMIVRAKH_TAG_BYTES], same[SEMIVRAKH_TAG_BYTES];
        tag_of_nothing(made);
        memcpy(same, made, sizeof same);
        jumps_allowed = 1;
        for (size_t i = 0; i < sizeof made && made[i] == same[i]; i++) table[0]++;
    }
    look("a call that is broken on purpose");
    if (strcmp(what, "answer") == 0) public_bytes("a call that is broken on purpose", &key, sizeof key);
}

int main(int words, char **word) {
    if (!RUNNING_ON_VALGRIND) {
        puts("secrets: run this under valgrind, which does the looking");
        return 2;
    }
    if (!find_table()) {
        puts("FAILED: the table of Enocoro's box is not found in this program, and can't be marked");
        return 1;
    }
    for (int round = 0; round < 2; round++) {
        keys_hidden = round == 0;
        sounds_hidden = !keys_hidden;
        all_calls();
        if (words == 3 && keys_hidden) broken(word[2]);
    }
    if (faults > 0) printf("secrets: %u calls, and %u times something depends on a key or a sound\n", calls, faults);
    else printf("secrets: %u calls, no branch and no address depends on a key or a sound, but the ones for 34 and 38"
                " and the place in Enocoro's table\n", calls);
    return faults > 0;
}
