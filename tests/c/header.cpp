// The headers as C++: every call is named and linked, one stream and one pack under each cipher go there and back, the
// pack as stereo sound too, a tag comes out as its paper has it, one empty sound goes over the link, and each number
// for no has its words.
#include "semivrakh_words.h"
#include "semivrakh.h"

#include <cstdio>
#include <cstring>

// Zeros: each key, each initial value and a pair name is a front of them.
static const uint8_t keys[SEMIVRAKH_KEYS_BYTES] = {};

static bool trivium_comes_back() {
    const uint8_t plain[5] = {'s', 'o', 'u', 'n', 'd'};
    const size_t key = SEMIVRAKH_KEY_BYTES, value = SEMIVRAKH_VALUE_BYTES;
    uint8_t cipher[SEMIVRAKH_CIPHER_BYTES], sealed[sizeof plain], opened[sizeof plain];
    int no = semivrakh_cipher_make(cipher, sizeof cipher, keys, key, keys, value);
    no |= semivrakh_cipher_encipher(cipher, sizeof cipher, plain, sizeof plain, sealed, sizeof sealed);
    no |= semivrakh_cipher_make(cipher, sizeof cipher, keys, key, keys, value);
    no |= semivrakh_cipher_encipher(cipher, sizeof cipher, sealed, sizeof sealed, opened, sizeof opened);
    return no == SEMIVRAKH_OK && std::memcmp(plain, opened, sizeof plain) == 0;
}

static bool enocoro_comes_back() {
    const uint8_t plain[5] = {'s', 'o', 'u', 'n', 'd'};
    const size_t key = SEMIVRAKH_ENOCORO_KEY_BYTES, value = SEMIVRAKH_ENOCORO_VALUE_BYTES;
    uint8_t cipher[SEMIVRAKH_ENOCORO_BYTES], sealed[sizeof plain], opened[sizeof plain];
    int no = semivrakh_enocoro_make(cipher, sizeof cipher, keys, key, keys, value);
    no |= semivrakh_enocoro_encipher(cipher, sizeof cipher, plain, sizeof plain, sealed, sizeof sealed);
    no |= semivrakh_enocoro_make(cipher, sizeof cipher, keys, key, keys, value);
    no |= semivrakh_enocoro_encipher(cipher, sizeof cipher, sealed, sizeof sealed, opened, sizeof opened);
    return no == SEMIVRAKH_OK && std::memcmp(plain, opened, sizeof plain) == 0;
}

static bool triad_comes_back() {
    const uint8_t plain[5] = {'s', 'o', 'u', 'n', 'd'};
    const size_t key = SEMIVRAKH_TRIAD_KEY_BYTES, nonce = SEMIVRAKH_TRIAD_NONCE_BYTES;
    uint8_t cipher[SEMIVRAKH_TRIAD_BYTES], sealed[sizeof plain], opened[sizeof plain];
    int no = semivrakh_triad_make(cipher, sizeof cipher, keys, key, keys, nonce);
    no |= semivrakh_triad_encipher(cipher, sizeof cipher, plain, sizeof plain, sealed, sizeof sealed);
    no |= semivrakh_triad_make(cipher, sizeof cipher, keys, key, keys, nonce);
    no |= semivrakh_triad_encipher(cipher, sizeof cipher, sealed, sizeof sealed, opened, sizeof opened);
    return no == SEMIVRAKH_OK && std::memcmp(plain, opened, sizeof plain) == 0;
}

// Annex A.1 of TRIAD's paper, its second vector: key and nonce count up from 0, data and message are a zero each.
static bool tag_is_the_papers() {
    const uint8_t key[SEMIVRAKH_TRIAD_KEY_BYTES] = {0, 1, 2, 3, 4, 5, 6, 7, 8, 9, 10, 11, 12, 13, 14, 15};
    const uint8_t printed[SEMIVRAKH_TAG_BYTES] = {0xD4, 0x1A, 0xF0, 0x01, 0xD9, 0xD7, 0x53, 0x67};
    uint8_t tag[SEMIVRAKH_TAG_BYTES];
    const int no = semivrakh_triad_tag(key, sizeof key, key, SEMIVRAKH_TRIAD_NONCE_BYTES, keys, 1, keys, 1,
                                       tag, sizeof tag);
    return no == SEMIVRAKH_OK && std::memcmp(tag, printed, sizeof tag) == 0;
}

static bool pack_comes_back(uint8_t cipher, size_t value) {
    const int16_t samples[2] = {-1, 1};
    const float frame[2] = {-1.0f / 32768.0f, 1.0f / 32768.0f};
    const uint32_t loop[2] = {0, 2};
    uint8_t pack[64];
    int16_t opened[2];
    float stereo[2];
    uint32_t loops[2];
    size_t length = 0, loop_numbers = 0, surveyed[SEMIVRAKH_OPENED_NUMBERS], numbers[SEMIVRAKH_OPENED_NUMBERS];
    size_t stereo_numbers[SEMIVRAKH_OPENED_NUMBERS];
    int no = semivrakh_pack_seal(nullptr, 0, keys, sizeof keys, cipher, 0, keys, value, samples, 2, loop, 2,
                                 pack, sizeof pack, &length);
    no |= semivrakh_pack_survey(pack, length, surveyed, SEMIVRAKH_OPENED_NUMBERS);
    no |= semivrakh_pack_open(pack, length, keys, sizeof keys, opened, 2, numbers, SEMIVRAKH_OPENED_NUMBERS);
    no |= semivrakh_pack_open_stereo(pack, length, keys, sizeof keys, stereo, 2, stereo_numbers,
                                     SEMIVRAKH_OPENED_NUMBERS);
    no |= semivrakh_pack_loops(pack, length, loops, 2, &loop_numbers);
    return no == SEMIVRAKH_OK && pack[surveyed[SEMIVRAKH_OPENED_VALUE_AT] - 2] == cipher
        && loop_numbers == 2 && std::memcmp(surveyed, numbers, sizeof numbers) == 0
        && std::memcmp(surveyed, stereo_numbers, sizeof numbers) == 0 && std::memcmp(stereo, frame, sizeof frame) == 0
        && semivrakh_pack_lacks(pack, length) == 0 && semivrakh_pack_lacks(pack, length - 1) == 1
        && std::memcmp(opened, samples, sizeof samples) == 0 && std::memcmp(loops, loop, sizeof loop) == 0;
}

static bool empty_sound_arrives() {
    uint8_t sender[SEMIVRAKH_SENDER_BYTES], receiver[SEMIVRAKH_RECEIVER_BYTES];
    uint8_t frame[SEMIVRAKH_FRAME_MOST], answer[SEMIVRAKH_ANSWER_MOST];
    size_t length = 0, answer_length = 0, sent[SEMIVRAKH_SENDER_NUMBERS], received[SEMIVRAKH_RECEIVER_NUMBERS];
    const size_t key = SEMIVRAKH_KEY_BYTES, pair = SEMIVRAKH_PAIR_BYTES;
    int no = semivrakh_sender_make(sender, sizeof sender, keys, key, keys, pair);
    no |= semivrakh_receiver_make(receiver, sizeof receiver, keys, key, keys, pair);
    no |= semivrakh_sender_begin(sender, sizeof sender, nullptr, 0);
    no |= semivrakh_sender_send(sender, sizeof sender, nullptr, 0, frame, sizeof frame, &length);
    no |= semivrakh_receiver_hear(receiver, sizeof receiver, frame, length, nullptr, 0, answer, sizeof answer,
                                  &answer_length);
    no |= semivrakh_sender_hear(sender, sizeof sender, answer, answer_length);
    no |= semivrakh_sender_status(sender, sizeof sender, sent, SEMIVRAKH_SENDER_NUMBERS);
    no |= semivrakh_receiver_status(receiver, sizeof receiver, received, SEMIVRAKH_RECEIVER_NUMBERS);
    return no == SEMIVRAKH_OK && sent[SEMIVRAKH_SENDER_PHASE] == SEMIVRAKH_DONE
        && received[SEMIVRAKH_RECEIVER_WHOLE] == 1;
}

// All that the header's enum has.
static const unsigned refusals[] = {
    SEMIVRAKH_OK,             SEMIVRAKH_BAD_KEY,        SEMIVRAKH_BAD_VALUE,      SEMIVRAKH_NOT_A_CIPHER,
    SEMIVRAKH_LONG_NAME,      SEMIVRAKH_BAD_NAME,       SEMIVRAKH_BAD_KEY_COUNT,  SEMIVRAKH_BAD_KEY_NUMBER,
    SEMIVRAKH_MANY_SAMPLES,   SEMIVRAKH_MANY_LOOPS,     SEMIVRAKH_BAD_LOOP,       SEMIVRAKH_MORE_BYTES,
    SEMIVRAKH_NO_ROOM,        SEMIVRAKH_NO_SESSION,     SEMIVRAKH_LONG_SOUND,     SEMIVRAKH_NO_TRANSFER,
    SEMIVRAKH_WRONG_SOUND,    SEMIVRAKH_NOT_A_FRAME,    SEMIVRAKH_OTHER_SESSION,  SEMIVRAKH_IMPOSSIBLE,
    SEMIVRAKH_OUT_OF_RULE,    SEMIVRAKH_CUT_IN_NAME,    SEMIVRAKH_CUT_IN_KEY,     SEMIVRAKH_CUT_IN_SAMPLES,
    SEMIVRAKH_CUT_IN_LOOPS,   SEMIVRAKH_LOWEST_SAMPLE,  SEMIVRAKH_ODD_SAMPLES,    SEMIVRAKH_OTHER_LENGTH,
    SEMIVRAKH_WRONG_TAG,      SEMIVRAKH_CUT_IN_TAG,
};

static bool is_refusal(unsigned number) {
    for (unsigned refusal : refusals) {
        if (refusal == number) return true;
    }
    return false;
}

static bool same(const char *one, const char *other) {
    return std::strcmp(one, other) == 0;
}

// Words that no other number has, and advice; for any number that no call answers, the words for an unknown one.
static bool each_number_has_words() {
    const unsigned unknown = 256;
    for (unsigned number = 0; number < unknown; number++) {
        bool known = !same(semivrakh_words(number), semivrakh_words(unknown));
        bool advised = !same(semivrakh_advice(number), semivrakh_advice(unknown));
        if (known != is_refusal(number) || advised != known) return false;
        for (unsigned other = 0; known && other < number; other++) {
            if (same(semivrakh_words(number), semivrakh_words(other))) return false;
        }
    }
    return true;
}

static int failed(const char *what) {
    std::printf("FAILED: %s\n", what);
    return 1;
}

int main() {
    if (!trivium_comes_back() || !enocoro_comes_back() || !triad_comes_back()) {
        return failed("a stream comes back as another");
    }
    if (!tag_is_the_papers()) return failed("a tag is not the paper's");
    if (!pack_comes_back(SEMIVRAKH_TRIVIUM, SEMIVRAKH_VALUE_BYTES)
        || !pack_comes_back(SEMIVRAKH_ENOCORO, SEMIVRAKH_ENOCORO_VALUE_BYTES)
        || !pack_comes_back(SEMIVRAKH_TRIAD, SEMIVRAKH_TRIAD_NONCE_BYTES)) {
        return failed("a pack comes back as another");
    }
    if (!empty_sound_arrives()) return failed("an empty sound doesn't arrive");
    if (semivrakh_version() != SEMIVRAKH_VERSION) return failed("the library has another version than the header");
    if (!each_number_has_words()) return failed("the words don't fit the numbers for no");
    return 0;
}
