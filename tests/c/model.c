/* The model's rules, and what all its parts share. */
#include <string.h>

#include "model.h"

struct model_rules model_rules = {
    .taps = {
        [MODEL_A] = {.near = 66, .oldest = 93, .factor = 92, .other_factor = 91, .own = 69},
        [MODEL_B] = {.near = 69, .oldest = 84, .factor = 83, .other_factor = 82, .own = 78},
        [MODEL_C] = {.near = 66, .oldest = 111, .factor = 110, .other_factor = 109, .own = 87},
    },
    .box = {1, 3, 9, 10, 5, 14, 7, 2, 13, 0, 12, 15, 4, 8, 6, 11},
    .boxed = {2, 7, 16, 29},
    .triad_taps = {
        [MODEL_A] = {.near = 68, .oldest = 80, .factor = 73, .other_factor = 79, .own = 74},
        [MODEL_B] = {.near = 64, .oldest = 88, .factor = 65, .other_factor = 87, .own = 66},
        [MODEL_C] = {.near = 68, .oldest = 88, .factor = 77, .other_factor = 87, .own = 84},
    },
    .triad_product = 85,
    .number = {
        [MODEL_BAD_KEY] = 1,
        [MODEL_BAD_VALUE] = 2,
        [MODEL_NOT_A_CIPHER] = 3,
        [MODEL_LONG_NAME] = 11,
        [MODEL_BAD_NAME] = 12,
        [MODEL_BAD_KEY_COUNT] = 13,
        [MODEL_BAD_KEY_NUMBER] = 14,
        [MODEL_MANY_SAMPLES] = 15,
        [MODEL_MANY_LOOPS] = 16,
        [MODEL_BAD_LOOP] = 17,
        [MODEL_MORE_BYTES] = 18,
        [MODEL_NO_ROOM] = 19,
        [MODEL_NO_SESSION] = 20,
        [MODEL_LONG_SOUND] = 21,
        [MODEL_NO_TRANSFER] = 22,
        [MODEL_WRONG_SOUND] = 23,
        [MODEL_NOT_A_FRAME] = 24,
        [MODEL_OTHER_SESSION] = 25,
        [MODEL_IMPOSSIBLE] = 26,
        [MODEL_OUT_OF_RULE] = 27,
        [MODEL_CUT_IN_NAME] = 30,
        [MODEL_CUT_IN_KEY] = 31,
        [MODEL_CUT_IN_SAMPLES] = 32,
        [MODEL_CUT_IN_LOOPS] = 33,
        [MODEL_LOWEST_SAMPLE] = 34,
        [MODEL_ODD_SAMPLES] = 35,
        [MODEL_OTHER_LENGTH] = 36,
        [MODEL_WRONG_TAG] = 38,
        [MODEL_CUT_IN_TAG] = 45,
    },
    .lacks_besides = 0,
    .lowest_opened = -32767,
    .halvings = 15,
    .left_first = true,
    .tag_compared = 8,
    .loops_tagged = true,
};

uint8_t model_no(enum model_reason reason) {
    return model_rules.number[reason];
}

uint32_t model_number_at(const uint8_t *bytes, size_t count) {
    uint32_t number = 0;
    for (size_t i = 0; i < count; i++) number = number * 256 + bytes[i];
    return number;
}

void model_write_number(uint8_t *bytes, size_t count, uint32_t number) {
    for (size_t i = count; i > 0; i--) {
        bytes[i - 1] = (uint8_t)(number % 256);
        number /= 256;
    }
}

size_t model_blocks(size_t sound_length) {
    return sound_length / 64 + (sound_length % 64 != 0);
}

uint8_t model_answer(size_t *answer, size_t answer_room, const size_t *numbers, size_t count) {
    if (answer_room < count) return model_no(MODEL_NO_ROOM);
    memcpy(answer, numbers, count * sizeof *numbers);
    return 0;
}
