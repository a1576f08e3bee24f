/*
 * Trivium in plain C, of the same design as the library's: two 64-bit words a register, the newest bit the lowest.
 * It is what the library is measured against, once 64 steps at a time and once a single step at a time.
 */
#ifndef OWN_TRIVIUM_H
#define OWN_TRIVIUM_H

#include "own_cipher.h"

/* A register's 64 newest bits are its word 0; word 1 has the older ones, and may have spare bits above them. */
struct own_trivium {
    uint64_t a1, a0, b1, b0, c1, c0;
};

own_make own_trivium_make;

/* 64 steps at once. */
own_encipher own_trivium_encipher;

/* The same as clang compiles it; bench/run makes it from the same source, with other names. */
own_encipher clang_trivium_encipher;

/* One step at a time. */
own_encipher own_trivium_encipher_by_bits;

own_record own_trivium_record;

#endif
