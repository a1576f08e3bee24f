/* The library's two ends and all sounds begun between them. Each call is followed by a look at what must hold then. */
#ifndef LINE_ENDS_H
#define LINE_ENDS_H

#include <stdbool.h>
#include <stddef.h>
#include <stdint.h>

#include "semivrakh.h"

enum { SENDER = SEMIVRAKH_SENDER_BYTES, RECEIVER = SEMIVRAKH_RECEIVER_BYTES };
enum { FRAME = SEMIVRAKH_FRAME_MOST, ANSWER = SEMIVRAKH_ANSWER_MOST, SOUND = SEMIVRAKH_SOUND_MOST };
enum { SOUNDS = 40, MARGIN = 64 };

/* What is counted. */
struct counted {
    uint64_t pairs, transfers, done, too_long, abandoned, moments, probes, undisturbed_rounds;
    uint64_t lost, repeated, delayed, reordered, across_transfers;
    uint64_t late_for_sender, late_for_receiver, short_room, wrong_sound, no_session_left, strays;
};

/* A sound, and the session that it was begun under; 0 if there was none left. */
struct sound {
    uint32_t session;
    size_t length;
    uint8_t *bytes;
};

extern struct counted counted;
extern uint8_t sender[SENDER], receiver[RECEIVER];
extern uint8_t buffer[SOUND + MARGIN];
extern size_t buffer_length;
extern unsigned sound_count;

_Noreturn void fail(const char *format, ...);

/* A number of the sender's status, by the header's index. */
size_t sender_says(int index);
size_t phase(void);
/* Blocks that the sender doesn't know to be held. */
size_t blocks_left(void);
bool under_way(void);

/* A fresh pair; or one as it stands near the last session, after an empty sound. */
void make_pair(void);
void make_old_pair(void);
/* A sound of random bytes for the sender's next session. */
const struct sound *new_sound(size_t length);
void forget_sounds(void);

void check_moment(void);
void begin(const struct sound *sound);
/* Hands back the frame's length, and 0 if the call was refused. Its answer must be `due`. */
size_t send_frame(uint8_t *frame, size_t room, size_t sound_length, uint8_t due);
uint8_t sender_hears(const uint8_t *frame, size_t length);
uint8_t receiver_hears(const uint8_t *frame, size_t length, uint8_t answer[ANSWER], size_t room, size_t *answer_length);
/* The receiver hears an opening of its own session, if it has one, with another length: no sender of its pair wrote it,
 * and as it is refused all goes on as if it had never come. */
void stray_opening(void);

/* Undisturbed rounds to the transfer's end, no more than may be; hands back how many. */
size_t finish_undisturbed(void);
/* The same on a copy, so that the transfer goes on as it stood. */
void probe(void);

#endif
