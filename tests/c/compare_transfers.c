/* Whole transfers. By turns the library's and the model's bytes go on to the next call. */
#include <string.h>

#include "calls.h"
#include "families.h"
#include "faults.h"
#include "link_input.h"
#include "model.h"
#include "random.h"

enum { SOUND_ROOM = 3000 };

static uint8_t sending_end[SENDER], receiving_end[RECEIVER];
static uint8_t sound[SOUND_ROOM], buffer[SOUND_ROOM];
static size_t sound_length, buffer_length;

static void ask_both_ends(void) {
    ask_sender(run_of(sending_end, SENDER), 0);
    ask_receiver(run_of(receiving_end, RECEIVER), 0);
}

static void make_both_ends(void) {
    uint8_t secrets[16];
    memcpy(secrets, noise(16), 16);
    plan_number(0);
    compare_sender_make(room(SENDER), run_of(secrets, 10), run_of(secrets + 10, 6));
    memcpy(sending_end, after(0), SENDER);
    plan_number(0);
    compare_receiver_make(room(RECEIVER), run_of(secrets, 10), run_of(secrets + 10, 6));
    memcpy(receiving_end, after(0), RECEIVER);
    ask_both_ends();
}

static void one_round(void) {
    ask_both_ends();
    plan_number(0);
    compare_sender_send(run_of(sending_end, SENDER), run_of(sound, sound_length), room(72));
    frame.length = *(const size_t *)after(3);
    memcpy(frame.bytes, after(2), frame.length);
    plan_number(0);
    compare_receiver_hear(run_of(receiving_end, RECEIVER), heard_frame(), run_of(buffer, buffer_length),
                          room(enough(7)));
    memcpy(receiving_end, after(0), RECEIVER);
    memcpy(buffer, after(2), buffer_length);
    frame.length = *(const size_t *)after(4);
    memcpy(frame.bytes, after(3), frame.length);
    plan_number(0);
    compare_sender_hear(run_of(sending_end, SENDER), heard_frame());
    memcpy(sending_end, after(0), SENDER);
}

/* The phase that the sender says it is in. Where that is done, it knows of all blocks, and the receiver is whole. */
static size_t phase_at_the_end(void) {
    plan_number(0);
    compare_sender_status(run_of(sending_end, SENDER), room(SEMIVRAKH_SENDER_NUMBERS));
    size_t sender[SEMIVRAKH_SENDER_NUMBERS];
    memcpy(sender, after(1), sizeof sender);
    if (sender[SEMIVRAKH_SENDER_PHASE] != SEMIVRAKH_DONE) return sender[SEMIVRAKH_SENDER_PHASE];
    if (sender[SEMIVRAKH_SENDER_KNOWN] != sender[SEMIVRAKH_SENDER_BLOCKS]) {
        differ("a sender is done, and doesn't know of all blocks");
    }
    plan_number(0);
    compare_receiver_status(run_of(receiving_end, RECEIVER), room(SEMIVRAKH_RECEIVER_NUMBERS));
    const size_t *receiver = after(1);
    if (receiver[SEMIVRAKH_RECEIVER_WHOLE] != 1
        || receiver[SEMIVRAKH_RECEIVER_SESSION] != sender[SEMIVRAKH_SENDER_SESSION]) {
        differ("a sender is done, and the receiver isn't whole");
    }
    return SEMIVRAKH_DONE;
}

static void one_transfer(void) {
    sound_length = random_once_in(20) ? random_below(SOUND_ROOM) : random_below(260);
    memcpy(sound, noise(sound_length), sound_length);
    plan_number(0);
    compare_sender_begin(run_of(sending_end, SENDER), run_of(sound, sound_length));
    memcpy(sending_end, after(0), SENDER);
    bool fits = sound_length <= buffer_length;
    size_t rounds = fits ? 1 + model_blocks(sound_length) : 1;
    for (size_t i = 0; i < rounds; i++) one_round();
    uint8_t end = fits ? SEMIVRAKH_DONE : SEMIVRAKH_REFUSED_TOO_LONG;
    if (phase_at_the_end() != end) differ("a transfer ends in another phase than %d", end);
    if (fits && memcmp(buffer, sound, sound_length) != 0) differ("a transfer ends with another sound");
}

void whole_transfers(void) {
    make_both_ends();
    buffer_length = random_once_in(3) ? random_below(260) : SOUND_ROOM;
    memcpy(buffer, noise(buffer_length), buffer_length);
    for (int i = 0; i < 4; i++) one_transfer();
}
