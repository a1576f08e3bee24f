/* Input for the link's calls that goes through records and frames byte by byte and edge by edge. */
#include <string.h>

#include "calls.h"
#include "families.h"
#include "faults.h"
#include "link_input.h"
#include "model.h"
#include "random.h"

/* Records and frames damaged at every byte, cut and lengthened. */

static size_t damaged_record_length, damaged_sound;

static struct run damaged_record(void) {
    return run_of(record, damaged_record_length);
}

static void sender_hears(void) {
    compare_sender_hear(damaged_record(), heard_frame());
}

static void sender_answers(void) {
    ask_sender(damaged_record(), compare_sender_hear(damaged_record(), heard_frame()));
    if (random_once_in(2)) compare_sender_send(damaged_record(), room(damaged_sound), room(72));
    if (random_once_in(2)) compare_sender_begin(damaged_record(), room(random_below(70)));
}

static uint8_t receiver_answers_frame(void) {
    return compare_receiver_hear(damaged_record(), heard_frame(), room(damaged_sound), room(enough(7)));
}

static void receiver_hears(void) {
    receiver_answers_frame();
}

static void receiver_answers(void) {
    ask_receiver(damaged_record(), receiver_answers_frame());
}

static void with_every_length(size_t *length, size_t most, void (*one)(void)) {
    size_t right = *length;
    for (*length = 0; *length <= most; (*length)++) one();
    *length = right;
}

/* All calls on the record meet its damage, and hearing alone that of the frame. */
static void damage_all(size_t record_length, void (*end_answers)(void), void (*end_hears)(void)) {
    damaged_record_length = record_length;
    damaged_sound = state.length;
    end_answers();
    with_each_byte_damaged(record, record_length, end_answers);
    with_each_byte_damaged(frame.bytes, frame.length, end_hears);
    with_every_length(&damaged_record_length, record_length + 3, end_answers);
    with_every_length(&frame.length, frame.length + 3, end_hears);
}

/* Damage is done many times over, so the sounds are kept short. */
static void shorten_sound(void) {
    if (state.length > 200) state.length = random_between(1, 200);
    if (state.progress > blocks()) state.progress = blocks();
}

void damaged_sender(void) {
    choose_sender(!random_once_in(4));
    shorten_sound();
    if (state.phase == SEMIVRAKH_SENDING) state.progress = choose_below(blocks());
    sender_record();
    write_possible_answer(state.session);
    damage_all(SENDER, sender_answers, sender_hears);
}

void damaged_receiver(void) {
    choose_receiver();
    shorten_sound();
    receiver_record();
    if (state.length == 0 || random_once_in(2)) write_opening_heard();
    else write_block_heard(false);
    damage_all(RECEIVER, receiver_answers, receiver_hears);
}

/* Records at the edges of their fields, in rule or not: all of them, or one in `edges_taken_once_in`. */

static uint32_t edges_taken_once_in;

static void sender_at_an_edge(void) {
    static const uint32_t counts[] = {0, 1, 65535};
    uint32_t held = random_once_in(4) ? ONE_OF(counts) : state.progress + random_below(3);
    struct run sender = sender_record();
    write_holds(state.session, held);
    compare_sender_hear(sender, heard_frame());
    write_too_long(state.session);
    compare_sender_hear(sender, heard_frame());
    compare_sender_send(sender, room(state.length), room(enough(72)));
    ask_sender(sender, compare_sender_begin(sender, room(choose_length())));
}

static void receiver_at_an_edge(void) {
    uint32_t lent_sound = state.length + random_below(3);
    struct run receiver = receiver_record();
    write_opening(random_once_in(2) ? state.session : choose_session(), lent_sound - random_below(3));
    compare_receiver_hear(receiver, heard_frame(), room(lent_sound), room(7));
    write_block(state.session, state.progress, state.length % 64 == 0 || random_once_in(2) ? 64 : state.length % 64);
    compare_receiver_hear(receiver, heard_frame(), room(lent_sound), room(7));
    write_block(state.session, state.progress - 1, 64);
    ask_receiver(receiver, compare_receiver_hear(receiver, heard_frame(), room(lent_sound), room(7)));
}

static void each_progress(void (*at_an_edge)(void)) {
    const uint32_t edges[] = {0, 1, blocks() - 1, blocks(), blocks() + 1, 65535};
    for (size_t i = 0; i < sizeof edges / sizeof *edges; i++) {
        state.progress = edges[i] % 65536;
        if (random_once_in(edges_taken_once_in)) at_an_edge();
    }
}

static void each_length_and_session(uint8_t phase, size_t record_length, void (*at_an_edge)(void)) {
    static const uint32_t sessions[] = {0, 1, UINT32_MAX};
    static const uint32_t lengths[] = {0, 1, 63, 64, 65, 32767, 32768, 32769};
    for (size_t i = 0; i < sizeof sessions / sizeof *sessions; i++) {
        for (size_t j = 0; j < sizeof lengths / sizeof *lengths; j++) {
            choose_common(record_length);
            state.session = sessions[i];
            state.length = lengths[j];
            state.phase = phase;
            each_progress(at_an_edge);
        }
    }
}

static void records_at_the_edges(uint32_t taken_once_in) {
    edges_taken_once_in = taken_once_in;
    for (uint8_t phase = 0; phase <= SEMIVRAKH_REFUSED_TOO_LONG + 1; phase++) {
        each_length_and_session(phase, SENDER, sender_at_an_edge);
    }
    each_length_and_session(0, RECEIVER, receiver_at_an_edge);
}

void all_records_at_the_edges(void) {
    records_at_the_edges(1);
}

void some_records_at_the_edges(void) {
    records_at_the_edges(16);
}

static void random_state(uint8_t *bytes) {
    static const uint32_t sessions[] = {0, 1, 2, 3, UINT32_MAX};
    model_write_number(bytes + SEMIVRAKH_SESSION_AT, 4, ONE_OF(sessions));
    model_write_number(bytes + SEMIVRAKH_LENGTH_AT, 4, random_once_in(8) ? over_the_limit() : random_below(300));
}

void random_link_input(void) {
    const struct run sender = run_of(record, SENDER), receiver = run_of(record, RECEIVER);
    for (int i = 0; i < 30; i++) {
        memcpy(record, noise(RECORD_ROOM), RECORD_ROOM);
        random_state(record);
        record[SEMIVRAKH_SENDER_PHASE_AT] = (uint8_t)random_below(6);
        model_write_number(record + SEMIVRAKH_SENDER_KNOWN_AT, 2, random_once_in(8) ? some_count() : random_below(6));
        start_frame((uint8_t)random_below(6), random_below(4), random_below(12));
        compare_sender_hear(sender, heard_frame());
        compare_sender_send(sender, room(model_number_at(record + SEMIVRAKH_LENGTH_AT, 4) % 33000),
                            room(random_below(75)));
        ask_sender(sender, compare_sender_begin(sender, room(choose_length())));
        model_write_number(record + SEMIVRAKH_RECEIVER_COUNT_AT, 2, random_once_in(8) ? some_count() : random_below(6));
        frame.bytes[7] = (uint8_t)random_below(66);
        frame.length = frame.bytes[0] == 2 ? 8u + frame.bytes[7] : random_below(12);
        ask_receiver(receiver, compare_receiver_hear(receiver, heard_frame(), room(random_below(300)),
                                                     room(random_between(5, 9))));
    }
}
