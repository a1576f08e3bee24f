#include "calls.h"

#include "model.h"

static struct lending lend(const char *name, struct run run, size_t size, bool may_write) {
    return (struct lending){name, run.content, run.count, size, may_write};
}

static struct lending to_read(const char *name, struct run run) {
    return lend(name, run, 1, false);
}

static struct lending to_write(const char *name, struct run run) {
    return lend(name, run, 1, true);
}

static struct lending numbers_to_write(const char *name, struct run run) {
    return lend(name, run, sizeof(size_t), true);
}

static struct lending number_to_write(const char *name) {
    return numbers_to_write(name, room(1));
}

typedef uint8_t maker(uint8_t *, size_t, const uint8_t *, size_t, const uint8_t *, size_t);

static uint8_t compare_make(enum call call, maker *const makers[SIDES], struct run record, struct run key,
                            struct run value) {
    uint8_t numbers[SIDES];
    lend_all((struct lending[]){to_write("record", record), to_read("key", key), to_read("value", value)}, 3);
    for (enum side side = LIBRARY; side < SIDES; side++) {
        numbers[side] = makers[side](lent(side, 0), record.count, lent(side, 1), key.count, lent(side, 2), value.count);
    }
    return settle(call, numbers);
}

enum call making_call(unsigned which) {
    static const enum call calls[MODEL_CIPHERS] = {
        [MODEL_TRIVIUM] = CIPHER_MAKE, [MODEL_ENOCORO] = ENOCORO_MAKE, [MODEL_TRIAD] = TRIAD_MAKE,
    };
    return calls[which];
}

enum call enciphering_call(unsigned which) {
    static const enum call calls[MODEL_CIPHERS] = {
        [MODEL_TRIVIUM] = CIPHER_ENCIPHER, [MODEL_ENOCORO] = ENOCORO_ENCIPHER, [MODEL_TRIAD] = TRIAD_ENCIPHER,
    };
    return calls[which];
}

uint8_t compare_cipher_make(unsigned which, struct run cipher, struct run key, struct run value) {
    static maker *const makers[MODEL_CIPHERS][SIDES] = {
        [MODEL_TRIVIUM] = {semivrakh_cipher_make, model_cipher_make},
        [MODEL_ENOCORO] = {semivrakh_enocoro_make, model_enocoro_make},
        [MODEL_TRIAD] = {semivrakh_triad_make, model_triad_make},
    };
    return compare_make(making_call(which), makers[which], cipher, key, value);
}

uint8_t compare_sender_make(struct run sender, struct run key, struct run pair) {
    static maker *const makers[SIDES] = {semivrakh_sender_make, model_sender_make};
    return compare_make(SENDER_MAKE, makers, sender, key, pair);
}

uint8_t compare_receiver_make(struct run receiver, struct run key, struct run pair) {
    static maker *const makers[SIDES] = {semivrakh_receiver_make, model_receiver_make};
    return compare_make(RECEIVER_MAKE, makers, receiver, key, pair);
}

typedef uint8_t teller(const uint8_t *, size_t, size_t *, size_t);

/* The calls that only say in numbers what some bytes hold. */
static uint8_t compare_telling(enum call call, teller *const tellers[SIDES], const char *name, struct run bytes,
                               struct run answer) {
    uint8_t numbers[SIDES];
    lend_all((struct lending[]){to_read(name, bytes), numbers_to_write("answer", answer)}, 2);
    for (enum side side = LIBRARY; side < SIDES; side++) {
        numbers[side] = tellers[side](lent(side, 0), bytes.count, lent(side, 1), answer.count);
    }
    return settle(call, numbers);
}

uint8_t compare_pack_survey(struct run file, struct run answer) {
    static teller *const tellers[SIDES] = {semivrakh_pack_survey, model_pack_survey};
    return compare_telling(PACK_SURVEY, tellers, "file", file, answer);
}

uint8_t compare_sender_status(struct run sender, struct run answer) {
    static teller *const tellers[SIDES] = {semivrakh_sender_status, model_sender_status};
    return compare_telling(SENDER_STATUS, tellers, "sender", sender, answer);
}

uint8_t compare_receiver_status(struct run receiver, struct run answer) {
    static teller *const tellers[SIDES] = {semivrakh_receiver_status, model_receiver_status};
    return compare_telling(RECEIVER_STATUS, tellers, "receiver", receiver, answer);
}

typedef uint8_t encipherer(uint8_t *, size_t, const uint8_t *, size_t, uint8_t *, size_t);

uint8_t compare_cipher_encipher(unsigned which, struct run cipher, struct run input, struct run output) {
    static encipherer *const encipherers[MODEL_CIPHERS][SIDES] = {
        [MODEL_TRIVIUM] = {semivrakh_cipher_encipher, model_cipher_encipher},
        [MODEL_ENOCORO] = {semivrakh_enocoro_encipher, model_enocoro_encipher},
        [MODEL_TRIAD] = {semivrakh_triad_encipher, model_triad_encipher},
    };
    uint8_t numbers[SIDES];
    lend_all((struct lending[]){to_write("cipher", cipher), to_read("input", input), to_write("output", output)}, 3);
    for (enum side side = LIBRARY; side < SIDES; side++) {
        numbers[side] = encipherers[which][side](lent(side, 0), cipher.count, lent(side, 1), input.count,
                                                 lent(side, 2), output.count);
    }
    return settle(enciphering_call(which), numbers);
}

typedef uint8_t tagger(const uint8_t *, size_t, const uint8_t *, size_t, const uint8_t *, size_t,
                       const uint8_t *, size_t, uint8_t *, size_t);

uint8_t compare_triad_tag(struct run key, struct run nonce, struct run associated, struct run message, struct run tag) {
    static tagger *const taggers[SIDES] = {semivrakh_triad_tag, model_triad_tag};
    uint8_t numbers[SIDES];
    lend_all((struct lending[]){to_read("key", key), to_read("nonce", nonce), to_read("associated", associated),
                                to_read("message", message), to_write("tag", tag)}, 5);
    for (enum side side = LIBRARY; side < SIDES; side++) {
        numbers[side] = taggers[side](lent(side, 0), key.count, lent(side, 1), nonce.count, lent(side, 2),
                                      associated.count, lent(side, 3), message.count, lent(side, TAGGED), tag.count);
    }
    return settle(TRIAD_TAG, numbers);
}

/* The two openings are lent the same but for the room of the sound. */
static void lend_opening(struct run file, struct run keys, struct lending sound, struct run answer) {
    lend_all((struct lending[]){to_read("file", file), to_read("keys", keys), sound,
                                numbers_to_write("answer", answer)}, 4);
}

uint8_t compare_pack_open(struct run file, struct run keys, struct run samples, struct run answer) {
    uint8_t numbers[SIDES];
    lend_opening(file, keys, lend("samples", samples, sizeof(int16_t), true), answer);
    numbers[LIBRARY] = semivrakh_pack_open(lent(LIBRARY, 0), file.count, lent(LIBRARY, 1), keys.count,
                                           lent(LIBRARY, 2), samples.count, lent(LIBRARY, 3), answer.count);
    numbers[MODEL] = model_pack_open(lent(MODEL, 0), file.count, lent(MODEL, 1), keys.count,
                                     lent(MODEL, 2), samples.count, lent(MODEL, 3), answer.count);
    return settle(PACK_OPEN, numbers);
}

uint8_t compare_pack_open_stereo(struct run file, struct run keys, struct run frames, struct run answer) {
    uint8_t numbers[SIDES];
    lend_opening(file, keys, lend("frames", frames, sizeof(float), true), answer);
    numbers[LIBRARY] = semivrakh_pack_open_stereo(lent(LIBRARY, 0), file.count, lent(LIBRARY, 1), keys.count,
                                                  lent(LIBRARY, 2), frames.count, lent(LIBRARY, 3), answer.count);
    numbers[MODEL] = model_pack_open_stereo(lent(MODEL, 0), file.count, lent(MODEL, 1), keys.count,
                                            lent(MODEL, 2), frames.count, lent(MODEL, 3), answer.count);
    return settle(PACK_OPEN_STEREO, numbers);
}

uint8_t compare_pack_loops(struct run file, struct run loops) {
    uint8_t numbers[SIDES];
    lend_all((struct lending[]){to_read("file", file), lend("loops", loops, sizeof(uint32_t), true),
                                number_to_write("loop_numbers")}, 3);
    numbers[LIBRARY] = semivrakh_pack_loops(lent(LIBRARY, 0), file.count, lent(LIBRARY, 1), loops.count,
                                            lent(LIBRARY, 2));
    numbers[MODEL] = model_pack_loops(lent(MODEL, 0), file.count, lent(MODEL, 1), loops.count, lent(MODEL, 2));
    return settle(PACK_LOOPS, numbers);
}

/* It refuses nothing and writes nothing. What it answers is put where other calls write, so it is compared there. */
size_t compare_pack_lacks(struct run file) {
    static size_t (*const lacks[SIDES])(const uint8_t *, size_t) = {semivrakh_pack_lacks, model_pack_lacks};
    lend_all((struct lending[]){to_read("file", file), number_to_write("what the file lacks")}, 2);
    for (enum side side = LIBRARY; side < SIDES; side++) {
        *(size_t *)lent(side, 1) = lacks[side](lent(side, 0), file.count);
    }
    settle(PACK_LACKS, (const uint8_t[SIDES]){0});
    return *(const size_t *)after(1);
}

uint8_t compare_pack_seal(const struct sealing *sealing) {
    uint8_t numbers[SIDES];
    lend_all((struct lending[]){to_read("name", sealing->name), to_read("keys", sealing->keys),
                                to_read("value", sealing->value),
                                lend("samples", sealing->samples, sizeof(int16_t), false),
                                lend("loops", sealing->loops, sizeof(uint32_t), false),
                                to_write("output", sealing->output), number_to_write("file_length")}, 7);
    numbers[LIBRARY] = semivrakh_pack_seal(
        lent(LIBRARY, 0), sealing->name.count, lent(LIBRARY, 1), sealing->keys.count,
        sealing->cipher, sealing->key_number, lent(LIBRARY, 2), sealing->value.count,
        lent(LIBRARY, 3), sealing->samples.count, lent(LIBRARY, 4), sealing->loops.count,
        lent(LIBRARY, 5), sealing->output.count, lent(LIBRARY, 6));
    numbers[MODEL] = model_pack_seal(
        lent(MODEL, 0), sealing->name.count, lent(MODEL, 1), sealing->keys.count,
        sealing->cipher, sealing->key_number, lent(MODEL, 2), sealing->value.count,
        lent(MODEL, 3), sealing->samples.count, lent(MODEL, 4), sealing->loops.count,
        lent(MODEL, 5), sealing->output.count, lent(MODEL, 6));
    return settle(PACK_SEAL, numbers);
}

uint8_t compare_sender_begin(struct run sender, struct run sound) {
    uint8_t numbers[SIDES];
    lend_all((struct lending[]){to_write("sender", sender), to_read("sound", sound)}, 2);
    numbers[LIBRARY] = semivrakh_sender_begin(lent(LIBRARY, 0), sender.count, lent(LIBRARY, 1), sound.count);
    numbers[MODEL] = model_sender_begin(lent(MODEL, 0), sender.count, lent(MODEL, 1), sound.count);
    return settle(SENDER_BEGIN, numbers);
}

uint8_t compare_sender_send(struct run sender, struct run sound, struct run frame) {
    uint8_t numbers[SIDES];
    lend_all((struct lending[]){to_read("sender", sender), to_read("sound", sound), to_write("frame", frame),
                                number_to_write("frame_length")}, 4);
    numbers[LIBRARY] = semivrakh_sender_send(lent(LIBRARY, 0), sender.count, lent(LIBRARY, 1), sound.count,
                                             lent(LIBRARY, 2), frame.count, lent(LIBRARY, 3));
    numbers[MODEL] = model_sender_send(lent(MODEL, 0), sender.count, lent(MODEL, 1), sound.count,
                                       lent(MODEL, 2), frame.count, lent(MODEL, 3));
    return settle(SENDER_SEND, numbers);
}

uint8_t compare_sender_hear(struct run sender, struct run frame) {
    uint8_t numbers[SIDES];
    lend_all((struct lending[]){to_write("sender", sender), to_read("frame", frame)}, 2);
    numbers[LIBRARY] = semivrakh_sender_hear(lent(LIBRARY, 0), sender.count, lent(LIBRARY, 1), frame.count);
    numbers[MODEL] = model_sender_hear(lent(MODEL, 0), sender.count, lent(MODEL, 1), frame.count);
    return settle(SENDER_HEAR, numbers);
}

uint8_t compare_receiver_hear(struct run receiver, struct run frame, struct run sound, struct run answer) {
    uint8_t numbers[SIDES];
    lend_all((struct lending[]){to_write("receiver", receiver), to_read("frame", frame), to_write("sound", sound),
                                to_write("answer", answer), number_to_write("answer_length")}, 5);
    numbers[LIBRARY] = semivrakh_receiver_hear(lent(LIBRARY, 0), receiver.count, lent(LIBRARY, 1), frame.count,
                                               lent(LIBRARY, 2), sound.count, lent(LIBRARY, 3), answer.count,
                                               lent(LIBRARY, 4));
    numbers[MODEL] = model_receiver_hear(lent(MODEL, 0), receiver.count, lent(MODEL, 1), frame.count,
                                         lent(MODEL, 2), sound.count, lent(MODEL, 3), answer.count, lent(MODEL, 4));
    return settle(RECEIVER_HEAR, numbers);
}
