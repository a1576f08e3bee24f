/* The two ends of the link, over records taken apart into plain fields. */
#include <string.h>

#include "model.h"

enum { KIND_OPENING = 1, KIND_BLOCK = 2, KIND_HOLDS = 3, KIND_TOO_LONG = 4 };
enum { OPENING_BYTES = 9, BLOCK_HEAD_BYTES = 8, HOLDS_BYTES = 7, TOO_LONG_BYTES = 5 };

struct link {
    uint8_t key[10];
    uint8_t pair[6];
    uint32_t session, length;
    uint8_t phase;     /* the sender's */
    uint32_t progress; /* known to the sender, held by the receiver */
};

static struct link read_common(const uint8_t *record) {
    struct link link = {.session = model_number_at(record + 16, 4), .length = model_number_at(record + 20, 4)};
    memcpy(link.key, record, 10);
    memcpy(link.pair, record + 10, 6);
    return link;
}

static void write_common(uint8_t *record, const struct link *link) {
    memcpy(record, link->key, 10);
    memcpy(record + 10, link->pair, 6);
    model_write_number(record + 16, 4, link->session);
    model_write_number(record + 20, 4, link->length);
}

static void write_sender(uint8_t *record, const struct link *link) {
    write_common(record, link);
    record[24] = link->phase;
    model_write_number(record + 25, 2, link->phase == SEMIVRAKH_SENDING ? link->progress : 0);
}

static void write_receiver(uint8_t *record, const struct link *link) {
    write_common(record, link);
    model_write_number(record + 24, 2, link->progress);
}

static bool read_sender(struct link *link, const uint8_t *record, size_t length) {
    if (length != SEMIVRAKH_SENDER_BYTES) return false;
    *link = read_common(record);
    link->phase = record[24];
    link->progress = model_number_at(record + 25, 2);
    if (link->length > SEMIVRAKH_SOUND_MOST || link->phase > SEMIVRAKH_REFUSED_TOO_LONG) return false;
    if (link->phase != SEMIVRAKH_IDLE && link->session == 0) return false;
    /* The layout has 0 for the known count of every other phase, so bytes with another count are no record. */
    if (link->phase != SEMIVRAKH_SENDING) return link->progress == 0;
    return link->progress < model_blocks(link->length);
}

static bool read_receiver(struct link *link, const uint8_t *record, size_t length) {
    if (length != SEMIVRAKH_RECEIVER_BYTES) return false;
    *link = read_common(record);
    link->progress = model_number_at(record + 24, 2);
    if (link->length > SEMIVRAKH_SOUND_MOST) return false;
    if (link->session == 0 && (link->length != 0 || link->progress != 0)) return false;
    return link->progress <= model_blocks(link->length);
}

static uint32_t bytes_of_block(const struct link *link, uint32_t block) {
    uint32_t left = link->length - 64 * block;
    return left < 64 ? left : 64;
}

/* One stream for the whole sound, begun anew and run up to the block. */
static void encipher_block(const struct link *link, uint32_t block, const uint8_t *input, uint8_t *output) {
    struct model_trivium trivium;
    uint8_t value[10];
    memcpy(value, link->pair, 6);
    model_write_number(value + 6, 4, link->session);
    model_trivium_load(&trivium, link->key, value);
    model_trivium_warm_up(&trivium);
    for (uint32_t step = 0; step < 8 * 64 * block; step++) model_trivium_step(&trivium);
    for (uint32_t i = 0; i < bytes_of_block(link, block); i++) output[i] = input[i] ^ model_trivium_next_byte(&trivium);
}

static void write_head(uint8_t *frame, uint8_t kind, uint32_t session) {
    frame[0] = kind;
    model_write_number(frame + 1, 4, session);
}

static uint8_t make_end(struct link *link, const uint8_t *key, size_t key_length, const uint8_t *pair,
                        size_t pair_length, size_t room, size_t needed) {
    if (key_length != 10) return model_no(MODEL_BAD_KEY);
    if (pair_length != 6) return model_no(MODEL_BAD_VALUE);
    if (room < needed) return model_no(MODEL_NO_ROOM);
    memset(link, 0, sizeof *link);
    memcpy(link->key, key, 10);
    memcpy(link->pair, pair, 6);
    return 0;
}

uint8_t model_sender_make(uint8_t *sender, size_t sender_length,
                          const uint8_t *key, size_t key_length,
                          const uint8_t *pair, size_t pair_length) {
    struct link link;
    uint8_t no = make_end(&link, key, key_length, pair, pair_length, sender_length, SEMIVRAKH_SENDER_BYTES);
    if (no == 0) write_sender(sender, &link);
    return no;
}

uint8_t model_receiver_make(uint8_t *receiver, size_t receiver_length,
                            const uint8_t *key, size_t key_length,
                            const uint8_t *pair, size_t pair_length) {
    struct link link;
    uint8_t no = make_end(&link, key, key_length, pair, pair_length, receiver_length, SEMIVRAKH_RECEIVER_BYTES);
    if (no == 0) write_receiver(receiver, &link);
    return no;
}

uint8_t model_sender_begin(uint8_t *sender, size_t sender_length, const uint8_t *sound, size_t sound_length) {
    struct link link;
    (void)sound;
    if (!read_sender(&link, sender, sender_length)) return model_no(MODEL_OUT_OF_RULE);
    if (sound_length > SEMIVRAKH_SOUND_MOST) return model_no(MODEL_LONG_SOUND);
    if (link.session == UINT32_MAX) return model_no(MODEL_NO_SESSION);
    link.session++;
    link.length = (uint32_t)sound_length;
    link.phase = SEMIVRAKH_OPENING;
    write_sender(sender, &link);
    return 0;
}

static bool under_way(const struct link *link) {
    return link->phase == SEMIVRAKH_OPENING || link->phase == SEMIVRAKH_SENDING;
}

uint8_t model_sender_send(const uint8_t *sender, size_t sender_length,
                          const uint8_t *sound, size_t sound_length,
                          uint8_t *frame, size_t frame_room,
                          size_t *frame_length) {
    struct link link;
    if (!read_sender(&link, sender, sender_length)) return model_no(MODEL_OUT_OF_RULE);
    if (!under_way(&link)) return model_no(MODEL_NO_TRANSFER);
    if (sound_length != link.length) return model_no(MODEL_WRONG_SOUND);
    bool opening = link.phase == SEMIVRAKH_OPENING;
    size_t length = opening ? OPENING_BYTES : BLOCK_HEAD_BYTES + bytes_of_block(&link, link.progress);
    if (frame_room < length) return model_no(MODEL_NO_ROOM);
    if (opening) {
        write_head(frame, KIND_OPENING, link.session);
        model_write_number(frame + 5, 4, link.length);
    } else {
        write_head(frame, KIND_BLOCK, link.session);
        model_write_number(frame + 5, 2, link.progress);
        frame[7] = (uint8_t)bytes_of_block(&link, link.progress);
        encipher_block(&link, link.progress, sound + 64 * link.progress, frame + BLOCK_HEAD_BYTES);
    }
    *frame_length = length;
    return 0;
}

/* A frame of the other end, as its fields. */
struct heard {
    uint8_t kind;
    uint32_t session;
    uint32_t length;                /* opening */
    uint32_t number, count;         /* block */
    uint32_t held;                  /* holds */
};

static bool read_answer(struct heard *heard, const uint8_t *frame, size_t length) {
    if (length != HOLDS_BYTES && length != TOO_LONG_BYTES) return false;
    if (frame[0] != (length == HOLDS_BYTES ? KIND_HOLDS : KIND_TOO_LONG)) return false;
    heard->kind = frame[0];
    heard->session = model_number_at(frame + 1, 4);
    if (heard->kind == KIND_HOLDS) heard->held = model_number_at(frame + 5, 2);
    return heard->session != 0;
}

static void learn(struct link *link, uint32_t known) {
    bool all = known == model_blocks(link->length);
    link->phase = all ? SEMIVRAKH_DONE : SEMIVRAKH_SENDING;
    link->progress = known;
}

uint8_t model_sender_hear(uint8_t *sender, size_t sender_length, const uint8_t *frame, size_t frame_length) {
    struct link link;
    struct heard heard = {0};
    if (!read_sender(&link, sender, sender_length)) return model_no(MODEL_OUT_OF_RULE);
    if (!read_answer(&heard, frame, frame_length)) return model_no(MODEL_NOT_A_FRAME);
    if (!under_way(&link)) return model_no(MODEL_NO_TRANSFER);
    if (heard.session != link.session) return model_no(MODEL_OTHER_SESSION);
    if (link.phase == SEMIVRAKH_OPENING) {
        if (heard.kind == KIND_HOLDS && heard.held > 0) return model_no(MODEL_IMPOSSIBLE);
        if (heard.kind == KIND_HOLDS) learn(&link, 0);
        else link.phase = SEMIVRAKH_REFUSED_TOO_LONG;
    } else {
        if (heard.kind == KIND_TOO_LONG || heard.held > link.progress + 1) return model_no(MODEL_IMPOSSIBLE);
        if (heard.held == link.progress + 1) learn(&link, heard.held);
    }
    write_sender(sender, &link);
    return 0;
}

uint8_t model_sender_status(const uint8_t *sender, size_t sender_length, size_t *answer, size_t answer_room) {
    struct link link;
    if (!read_sender(&link, sender, sender_length)) return model_no(MODEL_OUT_OF_RULE);
    size_t blocks = model_blocks(link.length);
    const size_t numbers[SEMIVRAKH_SENDER_NUMBERS] = {
        [SEMIVRAKH_SENDER_PHASE] = link.phase,
        [SEMIVRAKH_SENDER_SESSION] = link.session,
        [SEMIVRAKH_SENDER_LENGTH] = link.length,
        /* The record counts only while sending, and done says that all are held. */
        [SEMIVRAKH_SENDER_KNOWN] = link.phase == SEMIVRAKH_DONE ? blocks : link.progress,
        [SEMIVRAKH_SENDER_BLOCKS] = blocks,
    };
    return model_answer(answer, answer_room, numbers, SEMIVRAKH_SENDER_NUMBERS);
}

static bool read_question(struct heard *heard, const uint8_t *frame, size_t length) {
    if (length == 0) return false;
    heard->kind = frame[0];
    if (heard->kind == KIND_OPENING) {
        if (length != OPENING_BYTES) return false;
        heard->length = model_number_at(frame + 5, 4);
        if (heard->length > SEMIVRAKH_SOUND_MOST) return false;
    } else if (heard->kind == KIND_BLOCK) {
        if (length < BLOCK_HEAD_BYTES) return false;
        heard->number = model_number_at(frame + 5, 2);
        heard->count = frame[7];
        if (heard->count < 1 || heard->count > 64 || length != BLOCK_HEAD_BYTES + heard->count) return false;
    } else {
        return false;
    }
    heard->session = model_number_at(frame + 1, 4);
    return heard->session != 0;
}

static size_t answer_holds(uint8_t *answer, const struct link *link) {
    write_head(answer, KIND_HOLDS, link->session);
    model_write_number(answer + 5, 2, link->progress);
    return HOLDS_BYTES;
}

static size_t answer_too_long(uint8_t *answer, uint32_t session) {
    write_head(answer, KIND_TOO_LONG, session);
    return TOO_LONG_BYTES;
}

/* What speaks against a block; 0 if nothing does. */
static uint8_t block_fault(const struct link *link, const struct heard *heard, size_t sound_length) {
    if (heard->session != link->session) return model_no(MODEL_OTHER_SESSION);
    if (heard->number >= model_blocks(link->length)) return model_no(MODEL_IMPOSSIBLE);
    if (heard->count != bytes_of_block(link, heard->number)) return model_no(MODEL_IMPOSSIBLE);
    if (sound_length < link->length) return model_no(MODEL_WRONG_SOUND);
    return 0;
}

uint8_t model_receiver_hear(uint8_t *receiver, size_t receiver_length,
                            const uint8_t *frame, size_t frame_length,
                            uint8_t *sound, size_t sound_length,
                            uint8_t *answer, size_t answer_room,
                            size_t *answer_length) {
    struct link link;
    struct heard heard = {0};
    if (!read_receiver(&link, receiver, receiver_length)) return model_no(MODEL_OUT_OF_RULE);
    if (!read_question(&heard, frame, frame_length)) return model_no(MODEL_NOT_A_FRAME);
    if (heard.kind == KIND_OPENING) {
        if (heard.session < link.session) return model_no(MODEL_OTHER_SESSION);
        if (heard.session == link.session && heard.length != link.length) return model_no(MODEL_OTHER_LENGTH);
    } else {
        uint8_t no = block_fault(&link, &heard, sound_length);
        if (no != 0) return no;
    }
    if (answer_room < SEMIVRAKH_ANSWER_MOST) return model_no(MODEL_NO_ROOM);

    if (heard.kind == KIND_OPENING && heard.session > link.session) {
        if (heard.length > sound_length) {
            *answer_length = answer_too_long(answer, heard.session);
            return 0;
        }
        link.session = heard.session;
        link.length = heard.length;
        link.progress = 0;
    } else if (heard.kind == KIND_BLOCK && heard.number == link.progress) {
        encipher_block(&link, heard.number, frame + BLOCK_HEAD_BYTES, sound + 64 * heard.number);
        link.progress++;
    }
    write_receiver(receiver, &link);
    *answer_length = answer_holds(answer, &link);
    return 0;
}

uint8_t model_receiver_status(const uint8_t *receiver, size_t receiver_length, size_t *answer, size_t answer_room) {
    struct link link;
    if (!read_receiver(&link, receiver, receiver_length)) return model_no(MODEL_OUT_OF_RULE);
    size_t blocks = model_blocks(link.length);
    const size_t numbers[SEMIVRAKH_RECEIVER_NUMBERS] = {
        [SEMIVRAKH_RECEIVER_SESSION] = link.session,
        [SEMIVRAKH_RECEIVER_LENGTH] = link.length,
        [SEMIVRAKH_RECEIVER_HELD] = link.progress,
        [SEMIVRAKH_RECEIVER_BLOCKS] = blocks,
        [SEMIVRAKH_RECEIVER_WHOLE] = link.session != 0 && link.progress == blocks,
    };
    return model_answer(answer, answer_room, numbers, SEMIVRAKH_RECEIVER_NUMBERS);
}
