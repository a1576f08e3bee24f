#include "own_enocoro.h"

enum { BLANK_ROUNDS = 96, B_BYTES = 32 };

/* How many rounds the window moves before it goes back. */
enum { STRETCH = 256 };

static const uint8_t s8[256] = {
    99, 82, 26, 223, 138, 246, 174, 85, 137, 231, 208, 45, 189, 1, 36, 120,
    27, 217, 227, 84, 200, 164, 236, 126, 171, 0, 156, 46, 145, 103, 55, 83,
    78, 107, 108, 17, 178, 192, 130, 253, 57, 69, 254, 155, 52, 215, 167, 8,
    184, 154, 51, 198, 76, 29, 105, 161, 110, 62, 197, 10, 87, 244, 241, 131,
    245, 71, 31, 122, 165, 41, 60, 66, 214, 115, 141, 240, 142, 24, 170, 193,
    32, 191, 230, 147, 81, 14, 247, 152, 221, 186, 106, 5, 72, 35, 109, 212,
    30, 96, 117, 67, 151, 42, 49, 219, 132, 25, 175, 188, 204, 243, 232, 70,
    136, 172, 139, 228, 123, 213, 88, 54, 2, 177, 7, 114, 225, 220, 95, 47,
    93, 229, 209, 12, 38, 153, 181, 111, 224, 74, 59, 222, 162, 104, 146, 23,
    202, 238, 169, 182, 3, 94, 211, 37, 251, 157, 97, 89, 6, 144, 116, 44,
    39, 149, 160, 185, 124, 237, 4, 210, 80, 226, 73, 119, 203, 58, 15, 158,
    112, 22, 92, 239, 33, 179, 159, 13, 166, 201, 34, 148, 250, 75, 216, 101,
    133, 61, 150, 40, 20, 91, 102, 234, 127, 206, 249, 64, 19, 173, 195, 176,
    242, 194, 56, 128, 207, 113, 11, 135, 77, 53, 86, 233, 100, 190, 28, 187,
    183, 48, 196, 43, 255, 98, 65, 168, 21, 140, 18, 199, 121, 143, 90, 252,
    205, 9, 79, 125, 248, 134, 218, 16, 50, 118, 180, 163, 63, 68, 129, 235,
};

/* How far up in its word the byte stands that is the n-th of its eight. */
static int place(int n) { return 56 - 8 * n; }

static uint8_t byte(uint64_t word, int n) { return (uint8_t)(word >> place(n)); }

static uint64_t at(int n, uint8_t byte) { return (uint64_t)byte << place(n); }

/* Eight bytes one place on, with a byte that comes in at the front. */
static uint64_t moved(uint64_t word, uint8_t in) { return word >> 8 | at(0, in); }

/* 0x02 times x in the field of bytes. */
static uint8_t twice(uint8_t x) { return (uint8_t)(x << 1 ^ (x >> 7) * 0x1d); }

/* One byte and one round. */
static uint8_t next(struct own_enocoro *e)
{
    uint8_t byte_out = e->a1;
    uint8_t u0 = e->a0 ^ s8[byte(e->b0, 2)];
    uint8_t u1 = e->a1 ^ s8[byte(e->b0, 7)];
    *e = (struct own_enocoro){
        .a0 = u0 ^ u1 ^ s8[byte(e->b16, 0)],
        .a1 = u0 ^ twice(u1) ^ s8[byte(e->b24, 5)],
        .b0 = moved(e->b0, byte(e->b24, 7) ^ e->a0) ^ at(3, byte(e->b0, 6)),
        .b8 = moved(e->b8, byte(e->b0, 7) ^ byte(e->b8, 7)),
        .b16 = moved(e->b16, byte(e->b8, 7)) ^ at(1, byte(e->b24, 4)),
        .b24 = moved(e->b24, byte(e->b16, 7)),
    };
    return byte_out;
}

void own_enocoro_make(void *cipher, const uint8_t *key, const uint8_t *value)
{
    struct own_enocoro e = {
        .a0 = 0x88, .a1 = 0x4c,
        .b0 = load_word(key), .b8 = load_word(key + 8), .b16 = load_word(value), .b24 = UINT64_C(0x66e94bd4ef8a2c3b),
    };
    uint8_t counter = 1;
    for (int done = 0; done < BLANK_ROUNDS; done++) {
        e.b24 ^= at(7, counter);
        counter = twice(counter);
        next(&e);
    }
    *(struct own_enocoro *)cipher = e;
}

void own_enocoro_encipher(void *cipher, const uint8_t *input, uint8_t *output, size_t count)
{
    struct own_enocoro e = *(struct own_enocoro *)cipher; /* a copy, so that it can stay in the processor's registers */
    for (size_t i = 0; i < count; i++)
        output[i] = input[i] ^ next(&e);
    *(struct own_enocoro *)cipher = e;
}

static void store_b(uint8_t b[B_BYTES], const struct own_enocoro *e)
{
    store_word(b, e->b0);
    store_word(b + 8, e->b8);
    store_word(b + 16, e->b16);
    store_word(b + 24, e->b24);
}

/* One byte and one round over bytes b in memory. All but four stay where they are, and from then on they begin one
 * place earlier. */
static uint8_t slide(uint8_t *b, uint8_t *a0, uint8_t *a1)
{
    uint8_t byte_out = *a1;
    uint8_t u0 = *a0 ^ s8[b[2]];
    uint8_t u1 = *a1 ^ s8[b[7]];
    b[-1] = b[31] ^ *a0;
    *a0 = u0 ^ u1 ^ s8[b[16]];
    *a1 = u0 ^ twice(u1) ^ s8[b[29]];
    b[2] ^= b[6];
    b[7] ^= b[15];
    b[16] ^= b[28];
    return byte_out;
}

void own_enocoro_encipher_by_window(void *cipher, const uint8_t *input, uint8_t *output, size_t count)
{
    struct own_enocoro *e = cipher;
    uint8_t room[STRETCH + B_BYTES], *b = room + STRETCH;
    uint8_t a0 = e->a0, a1 = e->a1; /* copies, as above */
    store_b(b, e);
    for (size_t i = 0; i < count; i++) {
        if (b == room)
            b = memmove(room + STRETCH, room, B_BYTES);
        output[i] = input[i] ^ slide(b--, &a0, &a1);
    }
    *e = (struct own_enocoro){ a0, a1, load_word(b), load_word(b + 8), load_word(b + 16), load_word(b + 24) };
}

void own_enocoro_record(const void *cipher, uint8_t *record)
{
    const struct own_enocoro *e = cipher;
    record[0] = e->a0;
    record[1] = e->a1;
    store_b(record + 2, e);
}
