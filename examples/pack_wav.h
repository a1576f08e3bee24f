/*
 * What the programs share that write a pack's sound as a WAV file: the words of the command, the files, what is said of
 * a pack that is refused and of one that isn't, and the WAV file but for its samples.
 */
#ifndef EXAMPLES_PACK_WAV_H
#define EXAMPLES_PACK_WAV_H

#include "files.h"

#define PACK_WAV_USAGE(program, what_rate_counts) \
    "usage: " program " KEYS PACK OUT.wav [RATE]\n" \
    "  KEYS  a file of 168 bytes: four keys of ten bytes each, for trivium, then four of 16 bytes each, for\n" \
    "        enocoro, and four of 16 bytes each, for triad. The pack says which one it is under; all others may be\n" \
    "        zeros\n" \
    "  RATE  " what_rate_counts " a second, 44100 if it is not given: a pack does not say"

enum {
    RATE_USUAL = 44100,
    RATE_MOST = 1000000,
    RIFF_HEAD = 12,
    CHUNK_HEAD = 8,
    FMT_PCM_BYTES = 16,
    FMT_BYTES = 18, /* of every other format */
    FACT_BYTES = 4,
    SMPL_HEAD = 36,
    SMPL_LOOP = 24,
    MIDDLE_C = 60,
    SAMPLE_BYTES_MOST = 4,
    WAV_MOST = RIFF_HEAD + CHUNK_HEAD + FMT_BYTES + CHUNK_HEAD + FACT_BYTES + CHUNK_HEAD
             + SAMPLE_BYTES_MOST * SEMIVRAKH_SAMPLES_MOST + CHUNK_HEAD + SMPL_HEAD + SMPL_LOOP * SEMIVRAKH_LOOPS_MOST
};

/* How a WAV file has its samples. Each of a frame's channels has one. */
struct wav_format {
    enum { PCM = 1, IEEE_FLOAT = 3 } kind;
    uint32_t channels, sample_bytes;
};

/* A pack that becomes a WAV file, from the words of the command on. */
struct job {
    const struct wav_format *format;
    struct file keys, pack;
    const char *wav_path;
    uint32_t rate; /* frames a second */
    size_t answer[SEMIVRAKH_OPENED_NUMBERS];
    size_t sample_count;
    /* Known when the pack is opened: a tag is of them too. */
    uint32_t loops[2 * SEMIVRAKH_LOOPS_MOST]; /* starts and ends in turn, in samples */
    size_t loop_count;
};

/* Of a pack that ends inside a section it is known what that section lacks; how much would follow it is not. */
_Noreturn static inline void refused_pack(uint8_t no, const struct file *pack)
{
    size_t missing = semivrakh_pack_lacks(pack->bytes, pack->length);
    if (missing == 0) refused(no, "%s has %zu bytes", pack->path, pack->length);
    refused(no, "%s has %zu bytes, and at least %zu more %s missing", pack->path, pack->length, missing,
            missing == 1 ? "is" : "are");
}

/* The name of the cipher that an accepted pack is under: its key count stands two bytes before its initial value. */
static inline const char *cipher_of(const struct job *job)
{
    uint8_t key_count = job->pack.bytes[job->answer[SEMIVRAKH_OPENED_VALUE_AT] - 2];
    size_t i = 0;
    while (i + 1 < CIPHERS && ciphers[i].key_count != key_count) i++;
    return ciphers[i].name;
}

/* Reads the words and the files, and what can be seen of the pack without keys. */
static inline struct job begin_job(const struct wav_format *format, const char *usage, int words, char **word)
{
    if (words != 4 && words != 5) stop("%s", usage);
    struct job job = {.format = format, .wav_path = word[3], .rate = RATE_USUAL};
    if (words == 5) job.rate = number_of(word[4], "RATE", 1, RATE_MOST);
    job.keys = read_file(word[1]);
    job.pack = read_file(word[2]);
    uint8_t no = semivrakh_pack_survey(job.pack.bytes, job.pack.length, job.answer, SEMIVRAKH_OPENED_NUMBERS);
    if (no != SEMIVRAKH_OK) refused_pack(no, &job.pack);
    job.sample_count = job.answer[SEMIVRAKH_OPENED_SAMPLES];
    return job;
}

/* The pack is in order as far as it can be seen without keys, and its samples have room. */
_Noreturn static inline void refused_opening(uint8_t no, const struct job *job)
{
    switch (no) {
    case SEMIVRAKH_WRONG_TAG:
        refused(no, "%s has %zu bytes, and another tag than key %zu for %s in %s gives", job->pack.path,
                job->pack.length, job->answer[SEMIVRAKH_OPENED_KEY], cipher_of(job), job->keys.path);
    case SEMIVRAKH_ODD_SAMPLES: refused(no, "%s has %zu samples", job->pack.path, job->sample_count);
    default: refused_keys(no, &job->keys);
    }
}

/* A WAV file as it grows. Its numbers have their least significant byte first. */
struct wav {
    uint8_t bytes[WAV_MOST];
    size_t length;
};

static inline void put(struct wav *wav, uint32_t number, uint32_t bytes)
{
    for (uint32_t i = 0; i < bytes; i++) wav->bytes[wav->length++] = (uint8_t)(number >> (8 * i));
}

static inline void put_chunk_head(struct wav *wav, const char id[5], size_t length)
{
    memcpy(wav->bytes + wav->length, id, 4);
    wav->length += 4;
    put(wav, (uint32_t)length, 4);
}

static inline void put_format(struct wav *wav, const struct wav_format *format, uint32_t rate)
{
    uint32_t frame_bytes = format->channels * format->sample_bytes;
    put_chunk_head(wav, "fmt ", format->kind == PCM ? FMT_PCM_BYTES : FMT_BYTES);
    put(wav, format->kind, 2);
    put(wav, format->channels, 2);
    put(wav, rate, 4);
    put(wav, rate * frame_bytes, 4);
    put(wav, frame_bytes, 2);
    put(wav, 8 * format->sample_bytes, 2);
    if (format->kind != PCM) put(wav, 0, 2); /* nothing more of the format follows */
}

static inline size_t frame_count(const struct job *job)
{
    return job->sample_count / job->format->channels;
}

/* All before the samples, which are to be put next. Formats other than PCM want a count of frames in a chunk. */
static inline void begin_wav(struct wav *wav, const struct job *job)
{
    wav->length = 0;
    put_chunk_head(wav, "RIFF", 0); /* the length, put in when it is known */
    memcpy(wav->bytes + wav->length, "WAVE", 4);
    wav->length += 4;
    put_format(wav, job->format, job->rate);
    if (job->format->kind != PCM) {
        put_chunk_head(wav, "fact", FACT_BYTES);
        put(wav, (uint32_t)frame_count(job), 4);
    }
    put_chunk_head(wav, "data", job->format->sample_bytes * job->sample_count);
}

static inline void read_loops(struct job *job)
{
    size_t numbers;
    uint8_t no = semivrakh_pack_loops(job->pack.bytes, job->pack.length, job->loops, 2 * SEMIVRAKH_LOOPS_MOST,
                                      &numbers);
    if (no != SEMIVRAKH_OK) refused_pack(no, &job->pack);
    job->loop_count = numbers / 2;
}

/*
 * In a pack a loop ends before its end, in a WAV file with it; and in a pack it is in samples, in a WAV file in frames.
 * A loop of a stereo pack may begin with a right sample, or end with a left one, since packs don't know of frames. It
 * then goes from the frame of its first sample to that of its last: so it has all of its samples, is never empty, and
 * ends where the sound does at the latest.
 */
static inline void put_loops(struct wav *wav, const struct job *job)
{
    put_chunk_head(wav, "smpl", SMPL_HEAD + SMPL_LOOP * job->loop_count);
    put(wav, 0, 4); /* any maker */
    put(wav, 0, 4); /* any product */
    put(wav, (1000000000 + job->rate / 2) / job->rate, 4); /* nanoseconds a frame */
    put(wav, MIDDLE_C, 4); /* the note at which it sounds as it is */
    put(wav, 0, 4); /* and no fraction of a note */
    put(wav, 0, 4); /* no time code */
    put(wav, 0, 4);
    put(wav, (uint32_t)job->loop_count, 4);
    put(wav, 0, 4); /* nothing after the loops */
    for (size_t i = 0; i < job->loop_count; i++) {
        put(wav, (uint32_t)i, 4);
        put(wav, 0, 4); /* forward */
        put(wav, job->loops[2 * i] / job->format->channels, 4);
        put(wav, (job->loops[2 * i + 1] - 1) / job->format->channels, 4);
        put(wav, 0, 4); /* no fraction of a frame */
        put(wav, 0, 4); /* again and again, without end */
    }
}

static inline void print_pack(const struct job *job)
{
    const char *name = (const char *)job->pack.bytes + job->answer[SEMIVRAKH_OPENED_NAME_AT];
    printf("name %.*s\n", (int)job->answer[SEMIVRAKH_OPENED_NAME_LENGTH], name);
    printf("cipher %s\n", cipher_of(job));
    printf("key %zu\n", job->answer[SEMIVRAKH_OPENED_KEY]);
    printf("samples %zu\n", job->sample_count);
    printf("loops %zu\n", job->loop_count);
    for (size_t i = 0; i < job->loop_count; i++)
        printf("loop %zu from %u to %u\n", i + 1, job->loops[2 * i], job->loops[2 * i + 1]);
    if (job->format->channels > 1) printf("frames %zu\n", frame_count(job));
    printf("seconds %.3f\n", (double)frame_count(job) / job->rate);
}

/* All behind the samples. Writes the file, says what the pack holds, and gives back what the job has. */
static inline void end_job(struct job *job, struct wav *wav)
{
    read_loops(job);
    if (job->loop_count > 0) put_loops(wav, job);
    size_t whole = wav->length;
    wav->length = 4;
    put(wav, (uint32_t)(whole - CHUNK_HEAD), 4);
    write_file(job->wav_path, wav->bytes, whole);
    print_pack(job);
    free(job->pack.bytes);
    free(job->keys.bytes);
}

#endif
