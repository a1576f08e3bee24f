#include "line_ends.h"

#include <inttypes.h>
#include <stdarg.h>
#include <stdio.h>
#include <stdlib.h>
#include <string.h>

#include "random.h"

struct counted counted;
uint8_t sender[SENDER], receiver[RECEIVER];
uint8_t buffer[SOUND + MARGIN];
size_t buffer_length;
static struct sound sounds[SOUNDS];
unsigned sound_count;

_Noreturn void fail(const char *format, ...) {
    va_list arguments;
    printf("FAILED in transfer %" PRIu64 ", moment %" PRIu64 ": ", counted.transfers, counted.moments);
    va_start(arguments, format);
    vprintf(format, arguments);
    va_end(arguments);
    printf("\n");
    exit(1);
}

static void write_number(uint8_t *bytes, uint32_t number) {
    for (int i = 0; i < 4; i++) bytes[i] = (uint8_t)(number >> (24 - 8 * i));
}

size_t sender_says(int index) {
    size_t answer[SEMIVRAKH_SENDER_NUMBERS];
    uint8_t no = semivrakh_sender_status(sender, SENDER, answer, SEMIVRAKH_SENDER_NUMBERS);
    if (no != 0) fail("the sender's status is refused with %d", no);
    return answer[index];
}

static size_t receiver_says(int index) {
    size_t answer[SEMIVRAKH_RECEIVER_NUMBERS];
    uint8_t no = semivrakh_receiver_status(receiver, RECEIVER, answer, SEMIVRAKH_RECEIVER_NUMBERS);
    if (no != 0) fail("the receiver's status is refused with %d", no);
    return answer[index];
}

size_t phase(void) {
    return sender_says(SEMIVRAKH_SENDER_PHASE);
}

static size_t held(void) {
    return receiver_says(SEMIVRAKH_RECEIVER_HELD);
}

static size_t blocks_of(size_t length) {
    return (length + SEMIVRAKH_BLOCK_BYTES - 1) / SEMIVRAKH_BLOCK_BYTES;
}

size_t blocks_left(void) {
    return sender_says(SEMIVRAKH_SENDER_BLOCKS) - sender_says(SEMIVRAKH_SENDER_KNOWN);
}

bool under_way(void) {
    return phase() == SEMIVRAKH_OPENING || phase() == SEMIVRAKH_SENDING;
}

static const struct sound *sound_of(size_t session) {
    for (unsigned i = sound_count; i > 0; i--) {
        if (sounds[i - 1].session == session) return &sounds[i - 1];
    }
    fail("an end has session %zu, under which no sound was begun", session);
}

/* What must hold at every moment. */

static void check_held_bytes(void) {
    size_t session = receiver_says(SEMIVRAKH_RECEIVER_SESSION), length = receiver_says(SEMIVRAKH_RECEIVER_LENGTH);
    bool whole = receiver_says(SEMIVRAKH_RECEIVER_WHOLE);
    if (session == 0) {
        if (held() != 0 || length != 0 || whole) fail("the receiver has no session, and holds something");
        return;
    }
    const struct sound *sound = sound_of(session);
    if (length != sound->length) fail("the receiver has another length than the sound of its session");
    if (held() > blocks_of(sound->length)) fail("the receiver counts more blocks than there are");
    size_t bytes = held() * SEMIVRAKH_BLOCK_BYTES;
    if (bytes > sound->length) bytes = sound->length;
    if (whole != (bytes == sound->length)) fail("the receiver is wrong about having the whole sound");
    if (bytes > buffer_length) fail("the receiver counts bytes that have no place in its buffer");
    if (memcmp(buffer, sound->bytes, bytes) != 0) fail("the bytes counted as held aren't the front of the sound");
}

static void check_senders_end(void) {
    if (phase() == SEMIVRAKH_IDLE) return;
    size_t session = sender_says(SEMIVRAKH_SENDER_SESSION), blocks = sender_says(SEMIVRAKH_SENDER_BLOCKS);
    const struct sound *sound = sound_of(session);
    if (sender_says(SEMIVRAKH_SENDER_LENGTH) != sound->length || blocks != blocks_of(sound->length)) {
        fail("the sender has another length than the sound of its session");
    }
    if (phase() == SEMIVRAKH_DONE) {
        bool whole = receiver_says(SEMIVRAKH_RECEIVER_SESSION) == session && receiver_says(SEMIVRAKH_RECEIVER_WHOLE);
        if (!whole) fail("the sender is done, and the receiver doesn't hold the sound");
        if (blocks_left() != 0) fail("the sender is done, and doesn't know of all blocks");
    }
    if (phase() == SEMIVRAKH_REFUSED_TOO_LONG && sound->length <= buffer_length) {
        fail("the sender is refused a sound that has room");
    }
}

void check_moment(void) {
    counted.moments++;
    check_held_bytes();
    check_senders_end();
}

/* The ends' calls, each with what it may change. */

static void check_unchanged(const void *now, const void *before, size_t count, const char *what) {
    if (memcmp(now, before, count) != 0) fail("%s changed", what);
}

void begin(const struct sound *sound) {
    uint8_t before[SENDER];
    memcpy(before, sender, SENDER);
    uint8_t no = semivrakh_sender_begin(sender, SENDER, sound->bytes, sound->length);
    if (no == SEMIVRAKH_NO_SESSION && sound->session == 0) {
        check_unchanged(sender, before, SENDER, "a sender whose beginning was refused");
        counted.no_session_left++;
    } else if (no != 0) {
        fail("beginning was refused with %d", no);
    } else if (sender_says(SEMIVRAKH_SENDER_SESSION) != sound->session || phase() != SEMIVRAKH_OPENING) {
        fail("beginning gives another session or phase");
    }
    check_moment();
}

size_t send_frame(uint8_t *frame, size_t room, size_t sound_length, uint8_t due) {
    uint8_t before[SENDER], frame_before[FRAME];
    size_t length = 0;
    memcpy(before, sender, SENDER);
    memcpy(frame_before, frame, FRAME);
    const struct sound *sound = sound_of(sender_says(SEMIVRAKH_SENDER_SESSION));
    uint8_t no = semivrakh_sender_send(sender, SENDER, sound->bytes, sound_length, frame, room, &length);
    if (no != due) fail("sending answers %d, and %d was due", no, due);
    check_unchanged(sender, before, SENDER, "the sender's record, in sending,");
    if (no != 0) check_unchanged(frame, frame_before, FRAME, "the frame of a refused sending");
    if (no != 0 && length != 0) fail("a refused sending wrote a length");
    check_moment();
    return length;
}

uint8_t sender_hears(const uint8_t *frame, size_t length) {
    uint8_t before[SENDER];
    memcpy(before, sender, SENDER);
    uint8_t no = semivrakh_sender_hear(sender, SENDER, frame, length);
    if (no != 0) check_unchanged(sender, before, SENDER, "a sender that refused a frame");
    if (no != 0 && no != SEMIVRAKH_NO_TRANSFER && no != SEMIVRAKH_OTHER_SESSION) {
        fail("the sender refuses a delivered frame with %d", no);
    }
    check_moment();
    return no;
}

/* Of the buffer, a placed block may change, and nothing else. */
static void check_buffer(const uint8_t *before, size_t held_before, bool placed) {
    size_t from = 0, to = 0, end = receiver_says(SEMIVRAKH_RECEIVER_LENGTH);
    if (placed) {
        from = held_before * SEMIVRAKH_BLOCK_BYTES;
        to = from + SEMIVRAKH_BLOCK_BYTES;
        if (to > end) to = end;
    }
    check_unchanged(buffer, before, from, "the buffer, before the block that was placed,");
    size_t rest = buffer_length + MARGIN - to;
    check_unchanged(buffer + to, before + to, rest, "the buffer, outside the block that was placed,");
}

static uint8_t receiver_hears_any(const uint8_t *frame, size_t length, uint8_t answer[ANSWER], size_t room,
                                  size_t *answer_length) {
    static uint8_t buffer_before[SOUND + MARGIN];
    uint8_t before[RECEIVER], answer_before[ANSWER];
    size_t session_before = receiver_says(SEMIVRAKH_RECEIVER_SESSION), held_before = held();
    memcpy(before, receiver, RECEIVER);
    memcpy(buffer_before, buffer, buffer_length + MARGIN);
    memcpy(answer_before, answer, ANSWER);
    *answer_length = 0;
    uint8_t no = semivrakh_receiver_hear(receiver, RECEIVER, frame, length, buffer, buffer_length, answer, room,
                                         answer_length);
    bool same_session = receiver_says(SEMIVRAKH_RECEIVER_SESSION) == session_before;
    bool placed = no == 0 && same_session && held() == held_before + 1;
    check_buffer(buffer_before, held_before, placed);
    if (no != 0) {
        check_unchanged(receiver, before, RECEIVER, "a receiver that refused a frame");
        check_unchanged(answer, answer_before, ANSWER, "the answer of a refused frame");
        if (*answer_length != 0) fail("a refused frame has an answer's length");
    }
    if (no == 0 && room < ANSWER) fail("the receiver answers without room");
    check_moment();
    return no;
}

uint8_t receiver_hears(const uint8_t *frame, size_t length, uint8_t answer[ANSWER], size_t room,
                       size_t *answer_length) {
    uint8_t no = receiver_hears_any(frame, length, answer, room, answer_length);
    if (no != 0 && no != SEMIVRAKH_OTHER_SESSION && !(no == SEMIVRAKH_NO_ROOM && room < ANSWER)) {
        fail("the receiver refuses a delivered frame with %d", no);
    }
    return no;
}

void stray_opening(void) {
    uint8_t frame[] = {1, 0, 0, 0, 0, 0, 0, 0, 0}, answer[ANSWER] = {0};
    size_t session = receiver_says(SEMIVRAKH_RECEIVER_SESSION), length = receiver_says(SEMIVRAKH_RECEIVER_LENGTH);
    if (session == 0) return;
    const size_t others[] = {length == 0 ? 1 : 0, length == 0 ? 1 : length - 1, length == SOUND ? 1 : SOUND};
    write_number(frame + 1, (uint32_t)session);
    write_number(frame + 5, (uint32_t)others[counted.strays % 3]);
    uint8_t no = receiver_hears_any(frame, sizeof frame, answer, counted.strays % 2 == 0 ? ANSWER : 0, &length);
    if (no != SEMIVRAKH_OTHER_LENGTH) fail("an opening of the session in hand with another length gets %d", no);
    counted.strays++;
}

/* Undisturbed rounds. */

static void undisturbed_round(void) {
    uint8_t frame[FRAME] = {0}, answer[ANSWER] = {0};
    size_t answer_length;
    size_t length = send_frame(frame, FRAME, sender_says(SEMIVRAKH_SENDER_LENGTH), 0);
    uint8_t no = receiver_hears(frame, length, answer, ANSWER, &answer_length);
    if (no != 0) fail("in an undisturbed round the receiver refuses with %d", no);
    no = sender_hears(answer, answer_length);
    if (no != 0) fail("in an undisturbed round the sender refuses with %d", no);
    counted.undisturbed_rounds++;
}

size_t finish_undisturbed(void) {
    size_t most = blocks_left() + 1, rounds = 0;
    while (under_way()) {
        if (rounds == most) fail("%zu undisturbed rounds were not enough", most);
        undisturbed_round();
        rounds++;
    }
    bool fits = sender_says(SEMIVRAKH_SENDER_LENGTH) <= buffer_length;
    size_t due = fits ? SEMIVRAKH_DONE : SEMIVRAKH_REFUSED_TOO_LONG;
    if (phase() != due) fail("undisturbed rounds end in phase %zu, and %zu was due", phase(), due);
    return rounds;
}

void probe(void) {
    static uint8_t buffer_now[SOUND + MARGIN];
    uint8_t sender_now[SENDER], receiver_now[RECEIVER];
    memcpy(sender_now, sender, SENDER);
    memcpy(receiver_now, receiver, RECEIVER);
    memcpy(buffer_now, buffer, sizeof buffer);
    finish_undisturbed();
    memcpy(sender, sender_now, SENDER);
    memcpy(receiver, receiver_now, RECEIVER);
    memcpy(buffer, buffer_now, sizeof buffer);
    counted.probes++;
}

const struct sound *new_sound(size_t length) {
    struct sound *sound = &sounds[sound_count++];
    size_t last = sender_says(SEMIVRAKH_SENDER_SESSION);
    sound->session = last == UINT32_MAX ? 0 : (uint32_t)last + 1;
    sound->length = length;
    sound->bytes = malloc(length + 1);
    if (sound->bytes == NULL) fail("there is no memory for a sound");
    random_fill(sound->bytes, length);
    return sound;
}

void make_pair(void) {
    static const size_t lengths[] = {0, 1, 63, 64, 65, 200, 300};
    uint8_t key[10], pair[6];
    random_fill(key, sizeof key);
    random_fill(pair, sizeof pair);
    uint8_t no = semivrakh_sender_make(sender, SENDER, key, sizeof key, pair, sizeof pair);
    if (no == 0) no = semivrakh_receiver_make(receiver, RECEIVER, key, sizeof key, pair, sizeof pair);
    if (no != 0) fail("making a pair was refused with %d", no);
    buffer_length = random_once_in(3) ? lengths[random_below(sizeof lengths / sizeof *lengths)] : SOUND;
    random_fill(buffer, buffer_length + MARGIN);
    counted.pairs++;
}

void make_old_pair(void) {
    make_pair();
    write_number(sender + SEMIVRAKH_SESSION_AT, UINT32_MAX - random_between(1, 10));
    const struct sound *empty = new_sound(0);
    write_number(sender + SEMIVRAKH_SESSION_AT, empty->session);
    write_number(receiver + SEMIVRAKH_SESSION_AT, empty->session);
}

void forget_sounds(void) {
    while (sound_count > 0) free(sounds[--sound_count].bytes);
}
