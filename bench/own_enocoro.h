/*
 * Enocoro-128v2 in plain C, one byte a round, S8 by its table. It is what the library is measured against, once with
 * the bytes b in four 64-bit words that are shifted, and once with a window over bytes in memory that moves.
 */
#ifndef OWN_ENOCORO_H
#define OWN_ENOCORO_H

#include "own_cipher.h"

/* The two bytes a, and the 32 bytes b by eights, the first of each eight the most significant. */
struct own_enocoro {
    uint8_t a0, a1;
    uint64_t b0, b8, b16, b24;
};

own_make own_enocoro_make;

own_encipher own_enocoro_encipher, own_enocoro_encipher_by_window;

/* The same as clang compiles them; bench/run makes them from the same source, with other names. */
own_encipher clang_enocoro_encipher, clang_enocoro_encipher_by_window;

own_record own_enocoro_record;

#endif
