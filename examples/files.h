/*
 * What the example programs share: whole files read and written, and how a program ends that can't go on.
 * Exit status: 1 if the library said no, 2 if the words of the command or a file are at fault. What is wrong is said on
 * standard error, so that standard output holds nothing but results.
 */
#ifndef EXAMPLES_FILES_H
#define EXAMPLES_FILES_H

#include <errno.h>
#include <stdarg.h>
#include <stdbool.h>
#include <stdint.h>
#include <stdio.h>
#include <stdlib.h>
#include <string.h>

#include "semivrakh.h"
#include "semivrakh_words.h"

/* Says what is wrong, and ends the program. */
_Noreturn static inline void stop(const char *format, ...)
{
    va_list words;
    va_start(words, format);
    vfprintf(stderr, format, words);
    va_end(words);
    fputc('\n', stderr);
    exit(2);
}

/*
 * Says in three lines what the library refused, and ends the program: the number in words, then what the program knows
 * of it, the file and the figures, then what to do.
 */
_Noreturn static inline void refused(uint8_t no, const char *format, ...)
{
    fprintf(stderr, "refused %d: %s\n  ", no, semivrakh_words(no));
    va_list words;
    va_start(words, format);
    vfprintf(stderr, format, words);
    va_end(words);
    fprintf(stderr, "\n  %s\n", semivrakh_advice(no));
    exit(1);
}

/* A file read whole, of whatever length: its length is for the library to judge. */
struct file {
    const char *path;
    uint8_t *bytes;
    size_t length;
};

enum {
    FILE_FIRST_ROOM = 1 << 16,
    FILE_MOST = 1 << 26 /* far more than any of these programs can use; so a file without end comes to an end */
};

static inline struct file read_file(const char *path)
{
    FILE *stream = fopen(path, "rb");
    if (stream == NULL) stop("%s cannot be opened: %s", path, strerror(errno));
    struct file file = {path, NULL, 0};
    for (size_t room = FILE_FIRST_ROOM; file.length <= FILE_MOST && !feof(stream); room *= 2) {
        file.bytes = realloc(file.bytes, room);
        if (file.bytes == NULL) stop("there is not enough memory");
        file.length += fread(file.bytes + file.length, 1, room - file.length, stream);
        if (ferror(stream)) stop("%s cannot be read: %s", path, strerror(errno));
    }
    fclose(stream);
    if (file.length > FILE_MOST) stop("%s has over %d bytes, the most that is read", path, FILE_MOST);
    return file;
}

static inline void write_file(const char *path, const uint8_t *bytes, size_t length)
{
    FILE *file = fopen(path, "wb");
    if (file == NULL) stop("%s cannot be written: %s", path, strerror(errno));
    size_t written = fwrite(bytes, 1, length, file);
    if (fclose(file) != 0 || written != length) stop("%s cannot be written: %s", path, strerror(errno));
}

_Noreturn static inline void refused_keys(uint8_t no, const struct file *keys)
{
    refused(no, "%s has %zu bytes, and the keys of all ciphers have %d", keys->path, keys->length,
            SEMIVRAKH_KEYS_BYTES);
}

/* A cipher that a pack may be under. */
struct cipher {
    const char *name;
    uint8_t key_count; /* it tells the cipher, in a file and to sealing */
    size_t value_bytes;
};

static const struct cipher ciphers[] = {
    {"trivium", SEMIVRAKH_TRIVIUM, SEMIVRAKH_VALUE_BYTES},
    {"enocoro", SEMIVRAKH_ENOCORO, SEMIVRAKH_ENOCORO_VALUE_BYTES},
    {"triad", SEMIVRAKH_TRIAD, SEMIVRAKH_TRIAD_NONCE_BYTES},
};

enum { CIPHERS = sizeof ciphers / sizeof ciphers[0] };

/* Room for so many things, all zeros. */
static inline void *room_for(size_t count, size_t size)
{
    void *room = calloc(count + 1, size); /* one more, so that nothing at all is room as well */
    if (room == NULL) stop("there is not enough memory");
    return room;
}

/* A number in decimal digits, at most `most`. Answers if the text is one. */
static inline bool read_number(const char *text, uint32_t most, uint32_t *number)
{
    char *end;
    errno = 0;
    unsigned long read = strtoul(text, &end, 10);
    *number = (uint32_t)read;
    return text[0] >= '0' && text[0] <= '9' && *end == '\0' && errno == 0 && read <= most;
}

/* A number in decimal digits, from `least` to `most`. */
static inline uint32_t number_of(const char *text, const char *what, uint32_t least, uint32_t most)
{
    uint32_t number;
    if (!read_number(text, most, &number) || number < least)
        stop("%s is a number from %lu to %lu, not '%s'", what, (unsigned long)least, (unsigned long)most, text);
    return number;
}

#endif
