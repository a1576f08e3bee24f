/*
 * One comparison: the same input lent to the library and to the model, in two memories of their own, and everything
 * looked at afterwards. The lent buffers stand between guard bytes; buffers of bytes begin at odd addresses too.
 */
#ifndef LEND_H
#define LEND_H

#include <stdbool.h>
#include <stddef.h>
#include <stdint.h>

enum side { LIBRARY, MODEL, SIDES };

enum call {
    CIPHER_MAKE,
    CIPHER_ENCIPHER,
    ENOCORO_MAKE,
    ENOCORO_ENCIPHER,
    TRIAD_MAKE,
    TRIAD_ENCIPHER,
    TRIAD_TAG,
    PACK_OPEN,
    PACK_OPEN_STEREO,
    PACK_SURVEY,
    PACK_LOOPS,
    PACK_LACKS,
    PACK_SEAL,
    SENDER_MAKE,
    SENDER_BEGIN,
    SENDER_SEND,
    SENDER_HEAR,
    SENDER_STATUS,
    RECEIVER_MAKE,
    RECEIVER_HEAR,
    RECEIVER_STATUS,
    CALLS
};

enum { NUMBERS = 256, LENT_MOST = 8, REFUSALS_MOST = 20 };

/* What the header lists for a call, in its order, and a 0 at the end. A file that ends inside a section is listed once,
 * for its body: behind what is wrong with the section's count, before what is wrong with the body. With a tag's section
 * both have the same number. */
extern const uint8_t listed_refusals[CALLS][REFUSALS_MOST];
extern const char *const call_names[CALLS];

/* What is lent: `count` elements of `size` bytes. NULL as content leaves what noise is there. */
struct lending {
    const char *name;
    const void *content;
    size_t count, size;
    bool may_write;
};

/* Lays out the buffers in both memories. */
void lend_all(const struct lending *lendings, unsigned count);
/* Where a side finds buffer number `index`; NULL now and then if it has no element. */
void *lent(enum side side, unsigned index);
/* Compares all, counts, and ends the program at the first difference. Hands back the number. */
uint8_t settle(enum call call, const uint8_t numbers[SIDES]);
/* What buffer number `index` of the last comparison holds: the library's copy, or the model's, by turns. */
const void *after(unsigned index);

/* The number that the coming comparison must have, where the maker of the input knows it. */
void plan_number(uint8_t number);

/* Says what is wrong with the comparison just made, and ends the program. */
_Noreturn void differ(const char *format, ...);

uint64_t comparisons_made(void);
uint64_t times_answered(enum call call, uint8_t number);

/* Random bytes, of which any run may be lent as content. */
enum { NOISE_BYTES = 1 << 17 };
void fill_noise(void);
const uint8_t *noise(size_t count);

#endif
