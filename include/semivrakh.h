/*
 * semivrakh.h: sealed sound packs under the stream ciphers Trivium and Enocoro-128v2, or with a tag under TRIAD-AE, and
 * the two ends of the sound link, which is under Trivium.
 *
 * Every function below is proved: it takes every input, ends, and answers exactly what its definition says.
 *
 * What holds for every call
 *
 *   - It returns 0, or the number for no. A refused call writes nothing at all: no byte of a record, of a buffer or of
 *     a number that it was lent. Two calls only tell something, and refuse nothing: semivrakh_pack_lacks and
 *     semivrakh_version.
 *   - A run is lent as a pointer and the count of its elements. The pointer must be good for that many elements; with a
 *     count of 0 it isn't followed, and may be NULL. A pointer to a single size_t must be good.
 *   - What a call may write overlaps nothing else that it is lent; so enciphering goes from one buffer to another.
 *   - Where several numbers would fit, the first in the order given at the call is the answer.
 *   - A buffer may be longer than what is written to it; the rest stays as it was.
 *   - No call keeps anything between two calls, allocates, or reads or writes anything but what it is lent. Calls on
 *     different records may run at the same time.
 *
 * What isn't protected
 *
 *   - Only packs under TRIAD have a tag, by which a changed byte or a wrong key is noticed: opening refuses them with
 *     38. It is proved that the tag is the paper's, and that it is compared; that nobody finds a right one without the
 *     key is the cipher's claim. An older pack under the same key is as good as a new one.
 *   - Under Trivium and Enocoro, and on the link, a flipped bit in the samples, or in a block, is taken as good, and a
 *     wrong key gives noise and no refusal. Whoever can change a tagged file can also put one of these in its place: if
 *     only tagged packs are to be played, look at the key count.
 *   - Under one key an initial value is used once. Two packs that share both give away how their sounds differ.
 *   - The link's initial value is the pair name and the session. Two pairs of ends made with one key and one pair name
 *     give the keystream away: a pair name is unique under a key. Save a sender's record after each beginning, before
 *     anything is sent; one set back to an older record would use a session again.
 *   - Nothing is wiped: keys stay in the records, and on the stack after a call.
 *   - Enocoro looks secret bytes up in a table of 256, as its standard has it: whoever can watch the processor's caches
 *     may learn something of them. No address and no jump of Trivium and of TRIAD depends on a secret; that a tag is
 *     wrong is told, and not where.
 *
 * docs/FORMATS.md has the pack file, the frames and the records byte by byte, docs/TRUST.md what is proved and what
 * isn't, and semivrakh_words.h the numbers for no in words, with what to do about each.
 *
 * Records
 *
 *   A cipher, a sender and a receiver are runs of bytes that the caller keeps. They may be stored, copied and sent;
 *   they hold keys, so keep them as you keep keys. Numbers in them have their most significant byte first. Making
 *   writes a record to the front of any buffer that is long enough; every other call wants exactly the record's length,
 *   and refuses bytes that are no record, enciphering with 3 and the link's calls with 27. A record doesn't say what it
 *   is of: Enocoro's differs from the others in length alone, and Trivium's and TRIAD's not even in that. Lent to the
 *   other's calls they give a keystream of neither cipher, and no refusal.
 *
 *   Look at what making answers. A refused making leaves the buffer as it was, and what was in it may well be taken for
 *   a record.
 *
 *   Cipher, 48 bytes: the registers a (93 bits), b (84) and c (111), each in 16 bytes as one number, its newest bit the
 *   lowest. The bits above a register are ignored, and come back zero from a call that isn't refused; so every 48
 *   bytes are a cipher, 48 zeros too: their keystream is all zeros, and they encipher nothing.
 *
 *   Enocoro, 34 bytes: the two bytes a, a0 first, then the 32 bytes b, b0 first. Every 34 bytes are such a cipher.
 *
 *   TRIAD, 48 bytes: the registers a (80 bits), b (88) and c (88), each as two numbers of 8 bytes, first the one of its
 *   older bits and then the one of its newer. The newer one has the bits 1 to 64, bit 1, the newest, as its most
 *   significant; the older one has bit 65 as its most significant, and so on down. The lowest 48 bits of a's older
 *   number and the lowest 40 of b's and c's are ignored, and come back zero from a call that isn't refused; so every 48
 *   bytes are such a cipher, and 48 zeros encipher nothing here too. A record is for the keystream; a tag has none.
 *
 *   Sender, 27 bytes:
 *      0  key, 10 bytes
 *     10  pair name, 6 bytes
 *     16  session, 4 bytes; 0 means none yet
 *     20  length of the sound, 4 bytes, at most 32,768
 *     24  phase, 1 byte: 0 idle, 1 opening, 2 sending, 3 done, 4 refused as too long
 *     25  while sending, how many blocks are known to be held, 2 bytes; otherwise 0
 *   It is out of rule (27) with another phase or length, with a count that isn't 0 unless sending, with a session of 0
 *   unless idle, or sending with no block left.
 *
 *   Receiver, 26 bytes:
 *      0  key, 10 bytes
 *     10  pair name, 6 bytes
 *     16  session, 4 bytes; 0 means none yet
 *     20  length of the sound, 4 bytes, at most 32,768
 *     24  how many blocks are held, 2 bytes
 *   It is out of rule (27) with another length, with a session of 0 and a length or count that isn't 0, or with more
 *   blocks held than the sound has.
 *
 * Keys
 *
 *   A caller holds four keys for each cipher that packs may be under, and lends all of them as one run of 168 bytes:
 *      0  four keys of Trivium, 10 bytes each
 *     40  four keys of Enocoro, 16 bytes each
 *    104  four keys of TRIAD, 16 bytes each
 *   A pack says by its key count which cipher it is under, 11 for Trivium, 9 for Enocoro and 13 for TRIAD, and by its
 *   key number which of that cipher's four keys is its own. Keys that no pack is under may be zeros.
 *
 * An example: a cipher, and a stream in two calls
 *
 *     uint8_t cipher[SEMIVRAKH_CIPHER_BYTES];
 *     uint8_t no = semivrakh_cipher_make(cipher, sizeof cipher, key, 10, value, 10);
 *     if (no == 0) no = semivrakh_cipher_encipher(cipher, sizeof cipher, plain, 100, sealed, 100);
 *     if (no == 0) no = semivrakh_cipher_encipher(cipher, sizeof cipher, plain + 100, 28, sealed + 100, 28);
 */
#ifndef SEMIVRAKH_H
#define SEMIVRAKH_H

#include <stddef.h>
#include <stdint.h>

#ifdef __cplusplus
extern "C" {
#endif

/* The version of this header, 0.8.0: ten thousand times its first number, a hundred times its second, and its third. */
#define SEMIVRAKH_VERSION 800

/* The numbers for no. */
enum {
    SEMIVRAKH_OK = 0,
    SEMIVRAKH_BAD_KEY = 1,         /* key not 10 bytes, of Enocoro and TRIAD not 16; or all keys not 168 */
    SEMIVRAKH_BAD_VALUE = 2,       /* initial value not 10 bytes, Enocoro's not 8, TRIAD's not 12; or pair name not 6 */
    SEMIVRAKH_NOT_A_CIPHER = 3,    /* cipher record not 48 bytes, of Enocoro not 34 */
    SEMIVRAKH_LONG_NAME = 11,      /* name over 32 bytes */
    SEMIVRAKH_BAD_NAME = 12,       /* a name byte outside 32..126 */
    SEMIVRAKH_BAD_KEY_COUNT = 13,  /* key count none of 11, 9 and 13 */
    SEMIVRAKH_BAD_KEY_NUMBER = 14, /* key number over 3 */
    SEMIVRAKH_MANY_SAMPLES = 15,   /* over 16,384 samples */
    SEMIVRAKH_MANY_LOOPS = 16,     /* over 8 loops; in sealing also an odd run */
    SEMIVRAKH_BAD_LOOP = 17,       /* a loop's start not below its end, or its end over the sample count */
    SEMIVRAKH_MORE_BYTES = 18,     /* bytes after the last section */
    SEMIVRAKH_NO_ROOM = 19,        /* a lent output is too short */
    SEMIVRAKH_NO_SESSION = 20,     /* no session number left */
    SEMIVRAKH_LONG_SOUND = 21,     /* sound over 32,768 bytes */
    SEMIVRAKH_NO_TRANSFER = 22,    /* no transfer under way */
    SEMIVRAKH_WRONG_SOUND = 23,    /* lent sound not of the length begun; receiver's buffer shorter than the transfer */
    SEMIVRAKH_NOT_A_FRAME = 24,    /* not a frame for this end, or one with a number outside its limits */
    SEMIVRAKH_OTHER_SESSION = 25,  /* frame of another session; receiver: opening of a lower one */
    SEMIVRAKH_IMPOSSIBLE = 26,     /* a count or a block that can't be */
    SEMIVRAKH_OUT_OF_RULE = 27,    /* bytes that are no link record, or one out of rule */
    SEMIVRAKH_CUT_IN_NAME = 30,    /* file ends inside its name section */
    SEMIVRAKH_CUT_IN_KEY = 31,     /* file ends inside its key section */
    SEMIVRAKH_CUT_IN_SAMPLES = 32, /* file ends inside its sample section */
    SEMIVRAKH_CUT_IN_LOOPS = 33,   /* file ends inside its loop section */
    SEMIVRAKH_LOWEST_SAMPLE = 34,  /* sealing: a sample is -32,768, which has no opposite */
    SEMIVRAKH_ODD_SAMPLES = 35,    /* opening as stereo: the sample count is odd */
    SEMIVRAKH_OTHER_LENGTH = 36,   /* receiver: opening of its own session with another length */
    SEMIVRAKH_WRONG_TAG = 38,      /* opening: the tag isn't that of the file under its key */
    SEMIVRAKH_CUT_IN_TAG = 45      /* file ends inside its tag section, or that section's count isn't 8 */
};

/* Lengths, in bytes unless said otherwise. */
enum {
    SEMIVRAKH_CIPHER_BYTES = 48,  /* Trivium's record */
    SEMIVRAKH_ENOCORO_BYTES = 34, /* Enocoro's */
    SEMIVRAKH_TRIAD_BYTES = 48,   /* TRIAD's */
    SEMIVRAKH_SENDER_BYTES = 27,
    SEMIVRAKH_RECEIVER_BYTES = 26,
    SEMIVRAKH_KEY_BYTES = 10,    /* Trivium's, and the link's */
    SEMIVRAKH_VALUE_BYTES = 10,
    SEMIVRAKH_ENOCORO_KEY_BYTES = 16,
    SEMIVRAKH_ENOCORO_VALUE_BYTES = 8,
    SEMIVRAKH_TRIAD_KEY_BYTES = 16,
    SEMIVRAKH_TRIAD_NONCE_BYTES = 12, /* a nonce is what an initial value is to the others */
    SEMIVRAKH_TAG_BYTES = 8,     /* TRIAD's */
    SEMIVRAKH_PAIR_BYTES = 6,
    SEMIVRAKH_KEYS_BYTES = 168,  /* all keys for packs */
    SEMIVRAKH_ENOCORO_KEYS_AT = 40, /* where those of Enocoro begin among them */
    SEMIVRAKH_TRIAD_KEYS_AT = 104,  /* and those of TRIAD */
    SEMIVRAKH_NAME_MOST = 32,
    SEMIVRAKH_SAMPLES_MOST = 16384, /* samples */
    SEMIVRAKH_LOOPS_MOST = 8,    /* loops, two numbers each */
    SEMIVRAKH_PACK_MOST = 32893, /* the longest pack file, under TRIAD */
    SEMIVRAKH_SOUND_MOST = 32768, /* the longest sound on the link */
    SEMIVRAKH_BLOCK_BYTES = 64,
    SEMIVRAKH_FRAME_MOST = 72,   /* room for any frame of the sender */
    SEMIVRAKH_ANSWER_MOST = 7    /* room for any answer of the receiver */
};

/* The cipher of a pack, by its key count: a key number and an initial value. An accepted file has it two bytes before
 * its initial value. */
enum {
    SEMIVRAKH_TRIVIUM = 11,
    SEMIVRAKH_ENOCORO = 9,
    SEMIVRAKH_TRIAD = 13 /* the one whose packs have a tag */
};

/* What semivrakh_pack_open, semivrakh_pack_open_stereo and semivrakh_pack_survey answer, by index. Places are indices
 * into the file. */
enum {
    SEMIVRAKH_OPENED_SAMPLES = 0,     /* sample count */
    SEMIVRAKH_OPENED_KEY = 1,         /* key number */
    SEMIVRAKH_OPENED_LOOPS = 2,       /* loop count */
    SEMIVRAKH_OPENED_NAME_LENGTH = 3,
    SEMIVRAKH_OPENED_NAME_AT = 4,     /* where the name begins */
    SEMIVRAKH_OPENED_VALUE_AT = 5,    /* where the initial value begins; two bytes before it stands the key count */
    SEMIVRAKH_OPENED_LOOPS_AT = 6,    /* where the loops begin: 8 bytes each, start and end, 4 bytes each, most
                                         significant first; semivrakh_pack_loops reads them */
    SEMIVRAKH_OPENED_NUMBERS = 7
};

/* A sender's phase. */
enum {
    SEMIVRAKH_IDLE = 0,
    SEMIVRAKH_OPENING = 1,
    SEMIVRAKH_SENDING = 2,
    SEMIVRAKH_DONE = 3,
    SEMIVRAKH_REFUSED_TOO_LONG = 4
};

/* What semivrakh_sender_status answers, by index. */
enum {
    SEMIVRAKH_SENDER_PHASE = 0,   /* SEMIVRAKH_IDLE to SEMIVRAKH_REFUSED_TOO_LONG */
    SEMIVRAKH_SENDER_SESSION = 1, /* 0: none yet */
    SEMIVRAKH_SENDER_LENGTH = 2,  /* bytes of the sound */
    SEMIVRAKH_SENDER_KNOWN = 3,   /* how many blocks are known to be held: all of them once done */
    SEMIVRAKH_SENDER_BLOCKS = 4,  /* how many blocks the sound has */
    SEMIVRAKH_SENDER_NUMBERS = 5
};

/* What semivrakh_receiver_status answers, by index. */
enum {
    SEMIVRAKH_RECEIVER_SESSION = 0, /* 0: none yet */
    SEMIVRAKH_RECEIVER_LENGTH = 1,  /* bytes of the sound */
    SEMIVRAKH_RECEIVER_HELD = 2,    /* how many blocks are held */
    SEMIVRAKH_RECEIVER_BLOCKS = 3,  /* how many blocks the sound has */
    SEMIVRAKH_RECEIVER_WHOLE = 4,   /* 1 if there is a session and the whole sound is held, otherwise 0 */
    SEMIVRAKH_RECEIVER_NUMBERS = 5
};

/* Where fields begin in the records. */
enum {
    SEMIVRAKH_SESSION_AT = 16,         /* sender and receiver, 4 bytes */
    SEMIVRAKH_LENGTH_AT = 20,          /* sender and receiver, 4 bytes */
    SEMIVRAKH_SENDER_PHASE_AT = 24,    /* 1 byte */
    SEMIVRAKH_SENDER_KNOWN_AT = 25,    /* 2 bytes */
    SEMIVRAKH_RECEIVER_COUNT_AT = 24   /* 2 bytes */
};

/*
 * Makes a cipher from a key and an initial value of 10 bytes each, after its 1,152 blank rounds.
 * Writes the record to the front of `cipher`. Refuses, in order: 1, 2, 19 (fewer than 48 bytes for the record).
 */
uint8_t semivrakh_cipher_make(uint8_t *cipher, size_t cipher_length,
                              const uint8_t *key, size_t key_length,
                              const uint8_t *value, size_t value_length);

/*
 * Enciphers, or deciphers, which is the same: the input under the next bytes of the keystream, to the front of the
 * output. The record moves on by as many bytes, so a stream may be cut in calls at any byte.
 * Refuses, in order: 3, 19 (output shorter than the input).
 */
uint8_t semivrakh_cipher_encipher(uint8_t *cipher, size_t cipher_length,
                                  const uint8_t *input, size_t input_length,
                                  uint8_t *output, size_t output_length);

/*
 * The same for Enocoro-128v2: a key of 16 bytes and an initial value of eight, and 96 blank rounds.
 * Refuses, in order: 1, 2, 19 (fewer than 34 bytes for the record).
 */
uint8_t semivrakh_enocoro_make(uint8_t *cipher, size_t cipher_length,
                               const uint8_t *key, size_t key_length,
                               const uint8_t *value, size_t value_length);

/* Enciphers, or deciphers, as above. Refuses, in order: 3 (record not 34 bytes), 19 (output shorter than the input). */
uint8_t semivrakh_enocoro_encipher(uint8_t *cipher, size_t cipher_length,
                                   const uint8_t *input, size_t input_length,
                                   uint8_t *output, size_t output_length);

/*
 * The same for TRIAD, its keystream TRIAD-SC: a key of 16 bytes and a nonce of 12, and 1,024 blank rounds.
 * Refuses, in order: 1, 2, 19 (fewer than 48 bytes for the record).
 */
uint8_t semivrakh_triad_make(uint8_t *cipher, size_t cipher_length,
                             const uint8_t *key, size_t key_length,
                             const uint8_t *nonce, size_t nonce_length);

/* Enciphers, or deciphers, as above. Refuses, in order: 3 (record not 48 bytes), 19 (output shorter than the input). */
uint8_t semivrakh_triad_encipher(uint8_t *cipher, size_t cipher_length,
                                 const uint8_t *input, size_t input_length,
                                 uint8_t *output, size_t output_length);

/*
 * The tag of TRIAD-AE, its TRIAD-MAC, for associated data and a message, which is plain: 8 bytes to the front of `tag`.
 * Enciphering and this call, with the same key and nonce, are the whole of TRIAD-AE. Whoever compares tags should look
 * at all bytes before saying what came of it, as semivrakh_pack_open does.
 * Refuses, in order: 1 (key not 16 bytes), 2 (nonce not 12), 19 (fewer than 8 bytes for the tag).
 */
uint8_t semivrakh_triad_tag(const uint8_t *key, size_t key_length,
                            const uint8_t *nonce, size_t nonce_length,
                            const uint8_t *associated, size_t associated_length,
                            const uint8_t *message, size_t message_length,
                            uint8_t *tag, size_t tag_length);

/*
 * Opens a pack file under the cipher and the key that it names. Writes the samples to the front of `samples`, and seven
 * numbers, SEMIVRAKH_OPENED_.., to the front of `answer`. Lend 16,384 samples, and any pack has room.
 * Samples are -32,767 to 32,767, so each can be negated: a plain word of 80 00 is read as -32,767, as 80 01 is, and is
 * no fault.
 * A pack under TRIAD is opened exactly if, besides, its tag is that of its own bytes under its key: of all of its
 * sections but the samples and the tag itself as associated data, and of its plain samples as the message. Otherwise it
 * is 38, and nothing of its sound is given away.
 * Refuses, in order: 1 (keys not 168 bytes), what the file has wrong from front to back (11 to 18, 30 to 33 where it
 * ends inside a section, 45 for the tag's, which is before 18), 38 (wrong tag), 19 (too few samples lent for the pack,
 * or fewer than seven numbers).
 *
 *     int16_t samples[SEMIVRAKH_SAMPLES_MOST];
 *     size_t answer[SEMIVRAKH_OPENED_NUMBERS];
 *     uint8_t no = semivrakh_pack_open(file, file_length, keys, SEMIVRAKH_KEYS_BYTES,
 *                                      samples, SEMIVRAKH_SAMPLES_MOST, answer, SEMIVRAKH_OPENED_NUMBERS);
 *     if (no == 0) play(samples, answer[SEMIVRAKH_OPENED_SAMPLES]);
 */
uint8_t semivrakh_pack_open(const uint8_t *file, size_t file_length,
                            const uint8_t *keys, size_t keys_length,
                            int16_t *samples, size_t sample_room,
                            size_t *answer, size_t answer_room);

/*
 * Opens a pack file as semivrakh_pack_open does, and writes its samples as stereo sound: frames of two 32-bit floats, a
 * left and a right one, to the front of `frames`. Samples 0, 2, 4 and so on are left, samples 1, 3, 5 and so on right,
 * so the floats stand in the order of the samples, and there are as many of them.
 * The two calls agree: each float is exactly a sample of semivrakh_pack_open divided by 32,768, and the seven numbers
 * in `answer` are the same. So floats are -32,767/32,768 to 32,767/32,768, zero is positive zero, and nothing is ever
 * rounded. SEMIVRAKH_OPENED_SAMPLES counts samples: frames are half as many. Lend 16,384 floats, and any pack has room.
 * A pack doesn't say whether it is mono or stereo: that is for the caller to know.
 * Refuses, in order: 1 (keys not 168 bytes), what the file has wrong from front to back (11 to 18, 30 to 33 where it
 * ends inside a section, 45 for the tag's, which is before 18), 38 (wrong tag), 35 (an odd count of samples), 19 (fewer
 * floats lent than the pack has samples, or fewer than seven numbers).
 *
 *     float frames[SEMIVRAKH_SAMPLES_MOST];
 *     size_t answer[SEMIVRAKH_OPENED_NUMBERS];
 *     uint8_t no = semivrakh_pack_open_stereo(file, file_length, keys, SEMIVRAKH_KEYS_BYTES,
 *                                             frames, SEMIVRAKH_SAMPLES_MOST, answer, SEMIVRAKH_OPENED_NUMBERS);
 *     if (no == 0) play_stereo(frames, answer[SEMIVRAKH_OPENED_SAMPLES] / 2);
 */
uint8_t semivrakh_pack_open_stereo(const uint8_t *file, size_t file_length,
                                   const uint8_t *keys, size_t keys_length,
                                   float *frames, size_t float_room,
                                   size_t *answer, size_t answer_room);

/*
 * What a pack file says of itself: the seven numbers that semivrakh_pack_open would answer, given room for the samples.
 * It takes no keys, so a caller can look at a file, allocate, and then open it. Without keys it doesn't look at a tag:
 * what it tells of a pack that opening refuses with 38 may be what somebody put there.
 * Refuses, in order: what the file has wrong from front to back (11 to 18, 30 to 33 where it ends inside a section, 45
 * for the tag's), 19 (fewer than seven numbers lent).
 */
uint8_t semivrakh_pack_survey(const uint8_t *file, size_t file_length,
                              size_t *answer, size_t answer_room);

/*
 * The loops of a pack file, starts and ends in turn, as semivrakh_pack_seal takes them. Writes them to the front of
 * `loops` and how many numbers they are, twice the count of loops, to `*loop_numbers`. Lend 16 numbers, and any pack
 * has room. It takes no keys and doesn't look at a tag: open the pack first.
 * Refuses, in order: what the file has wrong from front to back (11 to 18, 30 to 33 where it ends inside a section, 45
 * for the tag's), 19 (too few numbers lent).
 */
uint8_t semivrakh_pack_loops(const uint8_t *file, size_t file_length,
                             uint32_t *loops, size_t loop_room,
                             size_t *loop_numbers);

/*
 * How many bytes a pack file lacks in the section that it ends inside: more than 0 where semivrakh_pack_survey says 30
 * to 33, or 45 since the file ends inside its tag section, and 0 for every other file: one in order, one with something
 * else wrong first, or one that is 45 for a count that isn't 8. It takes no keys, doesn't look at the tag, refuses
 * nothing and writes nothing.
 * Each section is a count and what it counts. A file that ends before a count is whole lacks only the count's own
 * bytes, since nobody can tell what would follow: an empty file lacks 1, and one that ends after the first byte of its
 * sample count 3. A file that ends behind a count lacks the rest of what the count promises. Sections after it are in
 * neither. With fewer bytes more than it lacks, a file is still refused with the same number.
 *
 *     uint8_t no = semivrakh_pack_survey(file, file_length, answer, SEMIVRAKH_OPENED_NUMBERS);
 *     size_t missing = semivrakh_pack_lacks(file, file_length);
 *     if (missing > 0) fprintf(stderr, "refused %d: %zu bytes are missing there\n", no, missing);
 */
size_t semivrakh_pack_lacks(const uint8_t *file, size_t file_length);

/*
 * Seals a sound as a pack file under `cipher`, SEMIVRAKH_TRIVIUM, SEMIVRAKH_ENOCORO or SEMIVRAKH_TRIAD, and the key of
 * that cipher that the key number names. The initial value has 10 bytes for Trivium, 8 for Enocoro and 12 for TRIAD,
 * under which the pack gets its tag. `loops` are starts and ends in turn, so `loop_numbers` is twice the count of
 * loops. Writes the file to the front of `output` and its length to `*file_length`. Lend 32,893 bytes, and any pack has
 * room. Never use an initial value twice under one key.
 * Samples are -32,767 to 32,767: a sound with a sample of -32,768 is refused with 34, wherever it stands.
 * What is sealed opens to itself. An accepted pack that is opened and sealed again, with its own name, cipher, key
 * number, initial value and loops, is the same file if no plain word of it was 80 00; otherwise each of these is 80 01
 * now, and a tag is that of the new words.
 * Refuses, in order: 1 (keys not 168 bytes), 11, 12, 13 (a cipher that is none of these), 2, 14, 15, 34, 16, 17, 19.
 *
 *     uint8_t file[SEMIVRAKH_PACK_MOST];
 *     size_t length;
 *     const uint32_t loops[] = {0, 100, 100, 200};
 *     uint8_t no = semivrakh_pack_seal((const uint8_t *)"Choir", 5, keys, SEMIVRAKH_KEYS_BYTES,
 *                                      SEMIVRAKH_TRIVIUM, 2, value, 10, samples, 200, loops, 4,
 *                                      file, sizeof file, &length);
 *     if (no == 0) fwrite(file, 1, length, stream);
 */
uint8_t semivrakh_pack_seal(const uint8_t *name, size_t name_length,
                            const uint8_t *keys, size_t keys_length,
                            uint8_t cipher, uint8_t key_number,
                            const uint8_t *value, size_t value_length,
                            const int16_t *samples, size_t sample_count,
                            const uint32_t *loops, size_t loop_numbers,
                            uint8_t *output, size_t output_length,
                            size_t *file_length);

/*
 * The link, sender's end. A transfer goes
 *
 *     uint8_t frame[SEMIVRAKH_FRAME_MOST], answer[SEMIVRAKH_ANSWER_MOST];
 *     size_t length, status[SEMIVRAKH_SENDER_NUMBERS];
 *     uint8_t no = semivrakh_sender_begin(sender, sizeof sender, sound, n);   made once, begun for each sound
 *     if (no == 0) save(sender, sizeof sender);                               before anything is sent
 *     for (int tries = 0; no == 0 && tries < MOST_TRIES; tries++) {
 *         no = semivrakh_sender_status(sender, sizeof sender, status, SEMIVRAKH_SENDER_NUMBERS);
 *         if (no != 0 || status[SEMIVRAKH_SENDER_PHASE] >= SEMIVRAKH_DONE) break;
 *         no = semivrakh_sender_send(sender, sizeof sender, sound, n, frame, sizeof frame, &length);
 *         if (no != 0) break;
 *         put_on_line(frame, length);
 *         if ((length = wait_for_answer(answer)) > 0) semivrakh_sender_hear(sender, sizeof sender, answer, length);
 *     }
 *
 * with no more to do after a loss than to send again. The other end hears, and answers whatever it doesn't refuse:
 *
 *     length = wait_for_frame(frame);
 *     if (semivrakh_receiver_hear(receiver, sizeof receiver, frame, length, room, sizeof room, answer, sizeof answer,
 *                                 &length) == 0) put_on_line(answer, length);
 *
 * A transfer ends with DONE, the receiver holding the whole sound, or with REFUSED_TOO_LONG; or it is given up, which
 * is to stop sending, and the next beginning goes over it. A refused beginning leaves the record as it was, and after a
 * done transfer that still says DONE: look at what beginning answers. A frame that comes late, twice or out of turn
 * does no harm: it is refused (22, 24, 25, 26: ignore it), or it is no news. 36 never answers such a frame: the opening
 * is of a sender that was set back or made anew. A frame is lent whole and alone; on a line of bytes the caller marks
 * where each begins and ends.
 *
 * The instrument may take the sound out of its buffer while semivrakh_receiver_status says WHOLE, and until the next
 * transfer's first block is heard. That another buffer was lent, or that the sound was altered while it was sent, goes
 * unnoticed.
 *
 * A pair of ends must be made fresh together, with the same key and pair name, and neither may be set back to an older
 * record. A sender made anew begins with session 1, one set back with a session that was used before. A receiver that
 * was kept refuses its openings with 25 if their session is below its own, and with 36 if it is its own and the sound
 * has another length (with the same length nobody can tell). Then both ends are made anew, under another pair name.
 * The longest pack, 32,893 bytes, is longer than the longest sound.
 */

/* Makes a sender, idle, at the front of `sender`. Refuses, in order: 1, 2, 19 (fewer than 27 bytes for the record). */
uint8_t semivrakh_sender_make(uint8_t *sender, size_t sender_length,
                              const uint8_t *key, size_t key_length,
                              const uint8_t *pair, size_t pair_length);

/*
 * Begins to send a sound, of 0 to 32,768 bytes, under the next session, also over an unfinished transfer. The same
 * sound is lent again to each sending. Refuses, in order: 27, 21, 20.
 */
uint8_t semivrakh_sender_begin(uint8_t *sender, size_t sender_length,
                               const uint8_t *sound, size_t sound_length);

/*
 * Writes the frame that is due, the opening or the first block not known to be held, to the front of `frame`, and its
 * length to `*frame_length`. The record doesn't change, and the same frame may be asked for again.
 * Refuses, in order: 27, 22, 23 (the sound hasn't the length begun), 19.
 */
uint8_t semivrakh_sender_send(const uint8_t *sender, size_t sender_length,
                              const uint8_t *sound, size_t sound_length,
                              uint8_t *frame, size_t frame_room,
                              size_t *frame_length);

/* Hears an answer of the receiver, lent exactly. Refuses, in order: 27, 24, 22, 25, 26. */
uint8_t semivrakh_sender_hear(uint8_t *sender, size_t sender_length,
                              const uint8_t *frame, size_t frame_length);

/*
 * What a sender's record says: five numbers, SEMIVRAKH_SENDER_.., to the front of `answer`.
 * Refuses, in order: 27, 19 (fewer than five numbers lent).
 */
uint8_t semivrakh_sender_status(const uint8_t *sender, size_t sender_length,
                                size_t *answer, size_t answer_room);

/*
 * The link, receiver's end. Makes a receiver at the front of `receiver`.
 * Refuses, in order: 1, 2, 19 (fewer than 26 bytes for the record).
 */
uint8_t semivrakh_receiver_make(uint8_t *receiver, size_t receiver_length,
                                const uint8_t *key, size_t key_length,
                                const uint8_t *pair, size_t pair_length);

/*
 * Hears a frame of the sender, lent exactly. Writes the answer frame to the front of `answer` and its length to
 * `*answer_length`. `sound` is the buffer that sounds arrive in: lend this receiver the same one, at the same length,
 * in every call from its making on, and let nobody else write to it. A block in turn writes its own bytes there, and
 * nothing else writes anything.
 * Refuses, in order: 27, 24, 25 or 36, 26, 23 (the buffer is shorter than the transfer), 19 (fewer than 7 bytes for an
 * answer).
 */
uint8_t semivrakh_receiver_hear(uint8_t *receiver, size_t receiver_length,
                                const uint8_t *frame, size_t frame_length,
                                uint8_t *sound, size_t sound_length,
                                uint8_t *answer, size_t answer_room,
                                size_t *answer_length);

/*
 * What a receiver's record says: five numbers, SEMIVRAKH_RECEIVER_.., to the front of `answer`.
 * Refuses, in order: 27, 19 (fewer than five numbers lent).
 */
uint8_t semivrakh_receiver_status(const uint8_t *receiver, size_t receiver_length,
                                  size_t *answer, size_t answer_room);

/* The version of the library that is linked. It is SEMIVRAKH_VERSION where library and header belong together. */
uint32_t semivrakh_version(void);

#ifdef __cplusplus
}
#endif

#endif
