/* Records of the link's ends and frames, in rule or broken on purpose, for the families of input. */
#ifndef LINK_INPUT_H
#define LINK_INPUT_H

#include <stdbool.h>
#include <stddef.h>
#include <stdint.h>

#include "calls.h"
#include "semivrakh.h"

enum { SENDER = SEMIVRAKH_SENDER_BYTES, RECEIVER = SEMIVRAKH_RECEIVER_BYTES };
enum { RECORD_ROOM = 400, FRAME_ROOM = 400 };

/* A record of either end. The phase is the sender's; progress is what the sender knows, or what the receiver holds. */
struct state {
    uint8_t secrets[16]; /* key and pair name */
    uint32_t session, length;
    uint8_t phase;
    uint32_t progress;
    size_t record_length;
};

struct frame {
    uint8_t bytes[FRAME_ROOM];
    size_t length;
};

/* What the coming comparison is about. */
extern struct state state;
extern uint8_t record[RECORD_ROOM];
extern struct frame frame;

#define ONE_OF(list) ((list)[random_below(sizeof(list) / sizeof *(list))])

/* Numbers, among which the edges come often. */
uint32_t choose_session(void);
/* A session above 0 that isn't `session`. */
uint32_t other_session(uint32_t session);
/* Most sounds are short, since the model goes through all the keystream before a block. */
uint32_t choose_length(void);
/* Lengths of a sound over the limit: one that can be lent, and any that can be written. */
uint32_t too_long_a_sound(void);
uint32_t over_the_limit(void);
uint32_t some_count(void);
/* Below `limit`, which isn't 0. */
uint32_t choose_below(uint32_t limit);

/* Of the state's sound. */
uint32_t blocks(void);
uint32_t block_bytes(uint32_t block);

/* Choose a state in rule, or put one out of rule. */
void choose_common(size_t record_length);
void choose_sender(bool under_way);
void break_sender(void);
void choose_receiver(void);
void break_receiver(void);

/* The state as bytes. */
struct run sender_record(void);
struct run receiver_record(void);

/* Write the frame. */
void start_frame(uint8_t kind, uint32_t session, size_t length);
void write_opening(uint32_t session, uint32_t length);
void write_block(uint32_t session, uint32_t number, uint32_t count);
void write_holds(uint32_t session, uint32_t count);
void write_too_long(uint32_t session);
struct run heard_frame(void);

/* Frames that the state's end takes; a block also of another session. */
void write_possible_answer(uint32_t session);
void write_opening_heard(void);
void write_block_heard(bool other);

/* Openings that a receiver refuses: of a session below its own, and of its own with another length. */
void write_opening_of_old(void);
void write_opening_of_another_length(void);

/* Compare what a record says of itself, in too little room, just enough, or more. Another call has answered `no` on the
 * same bytes: they are out of rule for both, or for neither. */
void ask_sender(struct run sender, uint8_t no);
void ask_receiver(struct run receiver, uint8_t no);

#endif
