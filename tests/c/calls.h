/* A comparison for each call of the header. What its buffers hold then, after() tells, in the order of lending. */
#ifndef CALLS_H
#define CALLS_H

#include <stddef.h>
#include <stdint.h>

#include "lend.h"

/* A run of elements to be lent; content NULL stands for any bytes. */
struct run {
    const void *content;
    size_t count;
};

static inline struct run run_of(const void *content, size_t count) {
    return (struct run){content, count};
}

/* Room for `count` elements, that hold anything. */
static inline struct run room(size_t count) {
    return (struct run){NULL, count};
}

/* The calls of a cipher, `which` being one of MODEL_CIPHERS, and their names in the header. */
enum call making_call(unsigned which);
enum call enciphering_call(unsigned which);
uint8_t compare_cipher_make(unsigned which, struct run cipher, struct run key, struct run value);
uint8_t compare_cipher_encipher(unsigned which, struct run cipher, struct run input, struct run output);
/* After it, the tag has index TAGGED. */
enum { TAGGED = 4 };
uint8_t compare_triad_tag(struct run key, struct run nonce, struct run associated, struct run message, struct run tag);
/* After either, the sound has index OPENED_SOUND and the numbers OPENED_ANSWER. */
enum { OPENED_SOUND = 2, OPENED_ANSWER = 3 };
uint8_t compare_pack_open(struct run file, struct run keys, struct run samples, struct run answer);
uint8_t compare_pack_open_stereo(struct run file, struct run keys, struct run frames, struct run answer);
uint8_t compare_pack_survey(struct run file, struct run answer);
uint8_t compare_pack_loops(struct run file, struct run loops);
/* Hands back what the file lacks. */
size_t compare_pack_lacks(struct run file);

struct sealing {
    struct run name, keys;
    uint8_t cipher, key_number;
    struct run value, samples, loops, output;
};

/* After it, the output has index SEALED_OUTPUT and the file's length SEALED_LENGTH. */
enum { SEALED_OUTPUT = 5, SEALED_LENGTH = 6 };
uint8_t compare_pack_seal(const struct sealing *sealing);

uint8_t compare_sender_make(struct run sender, struct run key, struct run pair);
uint8_t compare_sender_begin(struct run sender, struct run sound);
uint8_t compare_sender_send(struct run sender, struct run sound, struct run frame);
uint8_t compare_sender_hear(struct run sender, struct run frame);
uint8_t compare_sender_status(struct run sender, struct run answer);
uint8_t compare_receiver_make(struct run receiver, struct run key, struct run pair);
uint8_t compare_receiver_hear(struct run receiver, struct run frame, struct run sound, struct run answer);
uint8_t compare_receiver_status(struct run receiver, struct run answer);

#endif
