#include "link_input.h"

#include <string.h>

#include "faults.h"
#include "model.h"
#include "random.h"

struct state state;
uint8_t record[RECORD_ROOM];
struct frame frame;

uint32_t choose_session(void) {
    static const uint32_t edges[] = {1, 1, 2, 255, 256, 65536, UINT32_MAX - 1, UINT32_MAX};
    return random_once_in(3) ? ONE_OF(edges) : random_between(1, UINT32_MAX - 1);
}

uint32_t other_session(uint32_t session) {
    uint32_t other = random_once_in(2) ? session + (random_once_in(2) ? 1 : UINT32_MAX) : choose_session();
    if (other == 0 || other == session) other = session == 1 ? 2 : 1;
    return other;
}

uint32_t choose_length(void) {
    static const uint32_t edges[] = {0, 1, 63, 64, 65, 127, 128, 129, 192};
    static const uint32_t long_ones[] = {32767, 32768, 32704, 32705};
    if (random_once_in(40)) return random_once_in(2) ? ONE_OF(long_ones) : random_between(0, 32768);
    return random_once_in(3) ? ONE_OF(edges) : random_below(400);
}

uint32_t too_long_a_sound(void) {
    static const uint32_t edges[] = {32769, 32769, 32770, 32800, 33000};
    return ONE_OF(edges);
}

uint32_t over_the_limit(void) {
    static const uint32_t edges[] = {32769, 32770, 65536, 65537, 0x80000000, UINT32_MAX};
    return ONE_OF(edges);
}

uint32_t some_count(void) {
    static const uint32_t edges[] = {0, 1, 2, 255, 256, 512, 65535};
    return ONE_OF(edges);
}

uint32_t choose_below(uint32_t limit) {
    switch (random_below(4)) {
        case 0: return 0;
        case 1: return limit - 1;
        case 2: return limit > 1 ? 1 : 0;
        default: return random_below(limit);
    }
}

uint32_t blocks(void) {
    return (uint32_t)model_blocks(state.length);
}

uint32_t block_bytes(uint32_t block) {
    uint32_t left = state.length - 64 * block;
    return left < 64 ? left : 64;
}

void choose_common(size_t record_length) {
    memcpy(state.secrets, noise(16), 16);
    state.session = choose_session();
    state.length = choose_length();
    state.phase = 0;
    state.progress = 0;
    state.record_length = record_length;
}

static void set_phase(uint8_t phase) {
    state.phase = phase;
    if (phase != SEMIVRAKH_SENDING) return;
    if (state.length == 0) state.length = random_between(1, 200);
    state.progress = choose_below(blocks());
}

void choose_sender(bool under_way) {
    static const uint8_t at_rest[] = {SEMIVRAKH_IDLE, SEMIVRAKH_DONE, SEMIVRAKH_REFUSED_TOO_LONG};
    choose_common(SENDER);
    if (under_way) set_phase(random_once_in(3) ? SEMIVRAKH_OPENING : SEMIVRAKH_SENDING);
    else set_phase(ONE_OF(at_rest));
    if (state.phase == SEMIVRAKH_IDLE && random_once_in(3)) state.session = 0;
}

void break_sender(void) {
    switch (random_below(6)) {
        case 0: state.record_length = wrong_length(SENDER); break;
        case 1: state.length = over_the_limit(); break;
        case 2: state.phase = (uint8_t)(random_once_in(2) ? 5 : random_between(6, 255)); break;
        case 3:
            state.session = 0;
            if (state.phase == SEMIVRAKH_IDLE) state.phase = SEMIVRAKH_OPENING;
            break;
        case 4:
            if (state.phase == SEMIVRAKH_SENDING) state.phase = SEMIVRAKH_OPENING;
            state.progress = random_once_in(2) ? 1 : random_between(2, 65535);
            break;
        default:
            state.phase = SEMIVRAKH_SENDING;
            state.progress = random_once_in(2) ? blocks() : random_between(blocks(), 65535);
            break;
    }
}

void choose_receiver(void) {
    choose_common(RECEIVER);
    state.progress = choose_below(blocks() + 1);
}

void break_receiver(void) {
    switch (random_below(5)) {
        case 0: state.record_length = wrong_length(RECEIVER); break;
        case 1: state.length = over_the_limit(); break;
        case 2:
            state.session = 0;
            if (state.length == 0) state.length = 1;
            break;
        case 3:
            state.session = state.length = 0;
            state.progress = random_once_in(2) ? 1 : random_between(2, 65535);
            break;
        default: state.progress = random_once_in(2) ? blocks() + 1 : random_between(blocks() + 1, 65535); break;
    }
}

static void write_common(void) {
    memcpy(record, noise(RECORD_ROOM), RECORD_ROOM);
    memcpy(record, state.secrets, 16);
    model_write_number(record + SEMIVRAKH_SESSION_AT, 4, state.session);
    model_write_number(record + SEMIVRAKH_LENGTH_AT, 4, state.length);
}

struct run sender_record(void) {
    write_common();
    record[SEMIVRAKH_SENDER_PHASE_AT] = state.phase;
    model_write_number(record + SEMIVRAKH_SENDER_KNOWN_AT, 2, state.progress);
    return run_of(record, state.record_length);
}

struct run receiver_record(void) {
    write_common();
    model_write_number(record + SEMIVRAKH_RECEIVER_COUNT_AT, 2, state.progress);
    return run_of(record, state.record_length);
}

struct run heard_frame(void) {
    return run_of(frame.bytes, frame.length);
}

void start_frame(uint8_t kind, uint32_t session, size_t length) {
    memcpy(frame.bytes, noise(FRAME_ROOM), FRAME_ROOM);
    frame.bytes[0] = kind;
    model_write_number(frame.bytes + 1, 4, session);
    frame.length = length;
}

void write_opening(uint32_t session, uint32_t length) {
    start_frame(1, session, 9);
    model_write_number(frame.bytes + 5, 4, length);
}

void write_block(uint32_t session, uint32_t number, uint32_t count) {
    start_frame(2, session, 8 + count);
    model_write_number(frame.bytes + 5, 2, number);
    frame.bytes[7] = (uint8_t)count;
}

void write_holds(uint32_t session, uint32_t count) {
    start_frame(3, session, 7);
    model_write_number(frame.bytes + 5, 2, count);
}

void write_too_long(uint32_t session) {
    start_frame(4, session, 5);
}

void write_possible_answer(uint32_t session) {
    if (state.phase == SEMIVRAKH_SENDING) write_holds(session, choose_below(state.progress + 2));
    else if (random_once_in(2)) write_holds(session, 0);
    else write_too_long(session);
}

void write_opening_heard(void) {
    uint32_t session = random_once_in(3) ? state.session : random_between(state.session, UINT32_MAX);
    write_opening(session, session == state.session ? state.length : choose_length());
}

void write_opening_of_old(void) {
    write_opening(random_between(1, state.session - 1), choose_length());
}

void write_opening_of_another_length(void) {
    uint32_t length = random_once_in(2) ? state.length + 1 : choose_length();
    if (length == state.length || length > SEMIVRAKH_SOUND_MOST) length = state.length == 0 ? 1 : state.length - 1;
    write_opening(state.session, length);
}

void write_block_heard(bool other) {
    uint32_t session = other ? other_session(state.session) : state.session;
    uint32_t number = random_once_in(4) || state.progress == blocks() ? choose_below(blocks()) : state.progress;
    write_block(session, number, block_bytes(number));
}

/* Plans what a status answers in `lent` room, where `needed` is enough. */
static void plan_status(uint8_t no, size_t lent, size_t needed) {
    if (no == SEMIVRAKH_OUT_OF_RULE) plan_number(SEMIVRAKH_OUT_OF_RULE);
    else plan_number(lent < needed ? SEMIVRAKH_NO_ROOM : 0);
}

void ask_sender(struct run sender, uint8_t no) {
    size_t lent = enough_or_not(SEMIVRAKH_SENDER_NUMBERS);
    plan_status(no, lent, SEMIVRAKH_SENDER_NUMBERS);
    compare_sender_status(sender, room(lent));
}

void ask_receiver(struct run receiver, uint8_t no) {
    size_t lent = enough_or_not(SEMIVRAKH_RECEIVER_NUMBERS);
    plan_status(no, lent, SEMIVRAKH_RECEIVER_NUMBERS);
    if (compare_receiver_status(receiver, room(lent)) != 0) return;
    const size_t *said = after(1);
    if (said[SEMIVRAKH_RECEIVER_WHOLE] != 0 && said[SEMIVRAKH_RECEIVER_HELD] != said[SEMIVRAKH_RECEIVER_BLOCKS]) {
        differ("a receiver says that it is whole, and doesn't hold all blocks");
    }
}
