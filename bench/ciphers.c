#include "ciphers.h"

/* Each cipher's first key, and zeros. Any bytes would do: what a call executes doesn't depend on them. */
const uint8_t keys[SEMIVRAKH_KEYS_BYTES] = {
    0x0f, 0x62, 0xb5, 0x08, 0x5b, 0xae, 0x01, 0x54, 0xa7, 0xfa,
    [SEMIVRAKH_ENOCORO_KEYS_AT] =
    0x5a, 0xf1, 0x88, 0x1f, 0xb6, 0x4d, 0xe4, 0x7b, 0x12, 0xa9, 0x40, 0xd7, 0x6e, 0x05, 0x9c, 0x33,
    [SEMIVRAKH_TRIAD_KEYS_AT] =
    0xc3, 0x3e, 0xb9, 0x34, 0xaf, 0x2a, 0xa5, 0x20, 0x9b, 0x16, 0x91, 0x0c, 0x87, 0x02, 0x7d, 0xf8,
};
const uint8_t value[MOST_VALUE_BYTES] = { 0x28, 0x8f, 0xf6, 0x5d, 0xc4, 0x2b, 0x92, 0xf9, 0x60, 0xc7, 0x2e, 0x95 };

const struct cipher ciphers[CIPHERS] = {
    [TRIVIUM] = {
        .name = "Trivium",
        .number = SEMIVRAKH_TRIVIUM,
        .key = keys,
        .key_bytes = SEMIVRAKH_KEY_BYTES,
        .value_bytes = SEMIVRAKH_VALUE_BYTES,
        .record_bytes = SEMIVRAKH_CIPHER_BYTES,
        .make = semivrakh_cipher_make,
        .encipher = semivrakh_cipher_encipher,
        .own_make = own_trivium_make,
        .own_record = own_trivium_record,
        .engine_count = 3,
        .engines = {
            { "own C, 64 bits a step, gcc -O3", 1, .encipher = own_trivium_encipher },
            { "own C, 64 bits a step, clang -O3", 1, .encipher = clang_trivium_encipher },
            { "own C, one bit a step, gcc -O3", 0, .encipher = own_trivium_encipher_by_bits },
        },
    },
    [ENOCORO] = {
        .name = "Enocoro",
        .number = SEMIVRAKH_ENOCORO,
        .key = keys + SEMIVRAKH_ENOCORO_KEYS_AT,
        .key_bytes = SEMIVRAKH_ENOCORO_KEY_BYTES,
        .value_bytes = SEMIVRAKH_ENOCORO_VALUE_BYTES,
        .record_bytes = SEMIVRAKH_ENOCORO_BYTES,
        .make = semivrakh_enocoro_make,
        .encipher = semivrakh_enocoro_encipher,
        .own_make = own_enocoro_make,
        .own_record = own_enocoro_record,
        .engine_count = 4,
        .engines = {
            { "own C, b in a moving window, gcc -O3", 1, .encipher = own_enocoro_encipher_by_window },
            { "own C, b in a moving window, clang -O3", 1, .encipher = clang_enocoro_encipher_by_window },
            { "own C, b in four words, gcc -O3", 0, .encipher = own_enocoro_encipher },
            { "own C, b in four words, clang -O3", 0, .encipher = clang_enocoro_encipher },
        },
    },
    [TRIAD] = {
        .name = "TRIAD",
        .number = SEMIVRAKH_TRIAD,
        .key = keys + SEMIVRAKH_TRIAD_KEYS_AT,
        .key_bytes = SEMIVRAKH_TRIAD_KEY_BYTES,
        .value_bytes = SEMIVRAKH_TRIAD_NONCE_BYTES,
        .record_bytes = SEMIVRAKH_TRIAD_BYTES,
        .make = semivrakh_triad_make,
        .encipher = semivrakh_triad_encipher,
        .tag = semivrakh_triad_tag,
        .own_make = own_triad_make,
        .own_record = own_triad_record,
        .engine_count = 3,
        .engines = {
            { "own C, 64 bits a step, gcc -O3", 1,
              own_triad_encipher, own_triad_tag, own_triad_seal, own_triad_open },
            { "own C, 64 bits a step, clang -O3", 1,
              clang_triad_encipher, clang_triad_tag, clang_triad_seal, clang_triad_open },
            { "own C, one bit a step, gcc -O3", 0, .encipher = own_triad_encipher_by_bits },
        },
    },
};
