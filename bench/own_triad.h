/*
 * TRIAD-AE in plain C, of the same design as the library's: two 64-bit words a register, the newest bit of each the
 * most significant, and 64 updates at a time. It is what the library is measured against, in enciphering, in tags, and
 * in sealing and opening packs with a tag.
 */
#ifndef OWN_TRIAD_H
#define OWN_TRIAD_H

#include "own_cipher.h"

/* A register's 64 newest bits are its word 0; word 1 has the older ones, and may have spare bits below them. */
struct own_triad {
    uint64_t a1, a0, b1, b0, c1, c0;
};

own_make own_triad_make;

/* 64 updates at once. */
own_encipher own_triad_encipher;

/* One update at a time. */
own_encipher own_triad_encipher_by_bits;

own_record own_triad_record;

/* Each by 64 updates at once too. */
own_tag own_triad_tag;
own_seal own_triad_seal;
own_open own_triad_open;

/* The same as clang compiles them; bench/run makes them from the same source, with other names. */
own_encipher clang_triad_encipher;
own_tag clang_triad_tag;
own_seal clang_triad_seal;
own_open clang_triad_open;

#endif
