/* Input for the link's calls, with faults singly and together. */
#include "calls.h"
#include "families.h"
#include "faults.h"
#include "link_input.h"
#include "model.h"
#include "random.h"

/* Making the ends. */

static void make_sender_with(faults set) {
    plan_first(SENDER_MAKE, set);
    compare_sender_make(room(enough_but_for(set, SENDER)), room(has(set, 1) ? wrong_length(10) : 10),
                        room(has(set, 2) ? wrong_length(6) : 6));
}

static void make_receiver_with(faults set) {
    plan_first(RECEIVER_MAKE, set);
    compare_receiver_make(room(enough_but_for(set, RECEIVER)), room(has(set, 1) ? wrong_length(10) : 10),
                          room(has(set, 2) ? wrong_length(6) : 6));
}

void making_ends(void) {
    with_each_fault_set(SENDER_MAKE, 0, make_sender_with);
    with_each_fault_set(RECEIVER_MAKE, 0, make_receiver_with);
    for (size_t length = 0; length <= 12; length++) {
        compare_sender_make(room(SENDER), room(length), room(6));
        compare_sender_make(room(SENDER), room(10), room(length));
        compare_receiver_make(room(RECEIVER), room(length), room(6));
        compare_receiver_make(room(RECEIVER), room(10), room(length));
    }
}

/* Beginning. */

static void begin_with(faults set) {
    choose_sender(random_once_in(2));
    if (has(set, 20)) state.session = UINT32_MAX;
    else if (state.session == UINT32_MAX) state.session--;
    if (has(set, 27)) break_sender();
    struct run sender = sender_record();
    plan_first(SENDER_BEGIN, set);
    ask_sender(sender, compare_sender_begin(sender, room(has(set, 21) ? too_long_a_sound() : choose_length())));
}

void beginning(void) {
    for (int i = 0; i < 5; i++) with_each_fault_set(SENDER_BEGIN, 0, begin_with);
}

/* Sending. */

static void send_with(faults set) {
    choose_sender(!has(set, 22));
    bool opening = state.phase != SEMIVRAKH_SENDING;
    size_t due = opening ? 9 : 8 + block_bytes(state.progress);
    size_t sound = state.length;
    if (has(set, 23)) sound = random_once_in(4) ? too_long_a_sound() : wrong_length(state.length);
    if (has(set, 27)) break_sender();
    struct run sender = sender_record();
    plan_first(SENDER_SEND, set);
    ask_sender(sender, compare_sender_send(sender, room(sound), room(enough_but_for(set, due))));
}

void sending(void) {
    for (int i = 0; i < 4; i++) with_each_fault_set(SENDER_SEND, 0, send_with);
}

/* The sender hears. */

static void write_impossible_answer(uint32_t session) {
    uint32_t least = state.phase == SEMIVRAKH_SENDING ? state.progress + 2 : 1;
    if (state.phase == SEMIVRAKH_SENDING && random_once_in(3)) write_too_long(session);
    else write_holds(session, random_once_in(2) ? least : random_between(least, 65535));
}

static void unmake_answer(void) {
    switch (random_below(4)) {
        case 0: model_write_number(frame.bytes + 1, 4, 0); break;
        case 1: frame.length = random_once_in(4) ? 0 : frame.length + (random_once_in(2) ? 1 : -1); break;
        case 2: frame.bytes[0] = (uint8_t)random_between(5, 255); break;
        default:
            if (random_once_in(2)) write_opening(state.session, state.length);
            else write_block(state.session, 0, random_between(1, 64));
            break;
    }
}

static void sender_hears(void) {
    struct run sender = sender_record();
    ask_sender(sender, compare_sender_hear(sender, heard_frame()));
}

static void sender_hears_with(faults set) {
    choose_sender(!has(set, 22));
    uint32_t session = has(set, 25) || state.session == 0 ? other_session(state.session) : state.session;
    if (has(set, 26)) write_impossible_answer(session);
    else write_possible_answer(session);
    if (has(set, 24)) unmake_answer();
    if (has(set, 27)) break_sender();
    plan_first(SENDER_HEAR, set);
    sender_hears();
}

void sender_hearing(void) {
    for (int i = 0; i < 5; i++) with_each_fault_set(SENDER_HEAR, 0, sender_hears_with);
    for (uint32_t count = 0; count < 5; count++) {
        choose_sender(true);
        write_holds(state.session, random_once_in(3) ? some_count() : count);
        sender_hears();
    }
}

/* The receiver hears. */

static void make_block_impossible(void) {
    uint32_t number = model_number_at(frame.bytes + 5, 2), count = frame.bytes[7];
    uint32_t session = model_number_at(frame.bytes + 1, 4);
    if (random_once_in(2)) write_block(session, random_once_in(2) ? blocks() : random_between(blocks(), 65535), count);
    else write_block(session, number, count == 64 ? random_between(1, 63) : count + 1);
}

static void unmake_question(void) {
    bool opening = frame.bytes[0] == 1;
    switch (random_below(5)) {
        case 0: model_write_number(frame.bytes + 1, 4, 0); break;
        case 1: frame.length = random_once_in(4) ? 0 : frame.length + (random_once_in(2) ? 1 : -1); break;
        case 2: frame.bytes[0] = (uint8_t)(random_once_in(4) ? 0 : random_between(5, 255)); break;
        case 3:
            if (random_once_in(2)) write_holds(state.session, state.progress);
            else write_too_long(state.session);
            break;
        default:
            if (opening) model_write_number(frame.bytes + 5, 4, over_the_limit());
            else frame.bytes[7] = (uint8_t)(random_once_in(2) ? 0 : random_between(65, 255));
            if (!opening) frame.length = 8u + frame.bytes[7];
            break;
    }
}

static void receiver_hears(size_t sound, size_t answer_room) {
    struct run receiver = receiver_record();
    ask_receiver(receiver, compare_receiver_hear(receiver, heard_frame(), room(sound), room(answer_room)));
}

static void write_opening_with(faults set) {
    if (has(set, 25) && state.session == 1) state.session = 2;
    if (has(set, 25)) write_opening_of_old();
    else if (has(set, 36)) write_opening_of_another_length();
    else write_opening_heard();
}

static void receiver_hears_with(faults set) {
    size_t sound = 0;
    choose_receiver();
    bool block = has(set, 26) || has(set, 23) || (!has(set, 36) && random_once_in(2));
    if (block) set &= ~fault(36); /* an opening's alone, and 26 and 23 are a block's */
    if (block && state.length == 0) state.length = random_between(1, 130);
    if (block) write_block_heard(has(set, 25));
    else write_opening_with(set);
    if (has(set, 26)) make_block_impossible();
    if (has(set, 24)) unmake_question();
    if (block) sound = has(set, 23) ? shorter_than(state.length) : enough(state.length);
    else sound = random_once_in(2) ? random_below(500) : enough(state.length);
    if (has(set, 27)) break_receiver();
    plan_first(RECEIVER_HEAR, set);
    receiver_hears(sound, enough_but_for(set, SEMIVRAKH_ANSWER_MOST));
}

/* A fresh receiver takes every opening, and no block. */
static void fresh_receiver_hears(void) {
    choose_common(RECEIVER);
    state.session = state.length = 0;
    if (random_once_in(2)) write_opening(choose_session(), choose_length());
    else write_block(choose_session(), some_count(), random_between(1, 64));
    receiver_hears(random_below(400), enough(7));
}

static void opening_at_the_buffers_edge(void) {
    choose_receiver();
    if (state.session == UINT32_MAX) state.session--;
    uint32_t length = random_between(1, 200);
    write_opening(state.session + 1, length);
    receiver_hears(length + random_below(3) - 1, enough(7));
}

void receiver_hearing(void) {
    for (int i = 0; i < 3; i++) with_each_fault_set(RECEIVER_HEAR, 0, receiver_hears_with);
    for (int i = 0; i < 10; i++) {
        fresh_receiver_hears();
        opening_at_the_buffers_edge();
    }
}

/* What the ends say of themselves. */

static void ask_sender_with(faults set) {
    choose_sender(random_once_in(2));
    if (has(set, 27)) break_sender();
    plan_first(SENDER_STATUS, set);
    compare_sender_status(sender_record(), room(enough_but_for(set, SEMIVRAKH_SENDER_NUMBERS)));
}

static void ask_receiver_with(faults set) {
    choose_receiver();
    if (has(set, 27)) break_receiver();
    plan_first(RECEIVER_STATUS, set);
    compare_receiver_status(receiver_record(), room(enough_but_for(set, SEMIVRAKH_RECEIVER_NUMBERS)));
}

void asking_ends(void) {
    for (int i = 0; i < 5; i++) {
        with_each_fault_set(SENDER_STATUS, 0, ask_sender_with);
        with_each_fault_set(RECEIVER_STATUS, 0, ask_receiver_with);
    }
}
