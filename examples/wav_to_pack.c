/*
 * Seals the sound of a WAV file, mono or with --stereo in two channels, 16 bits, PCM, as a pack under any of the ciphers;
 * under triad it gets a tag, by which changes are noticed. Of a stereo sound the pack has a left sample and a right one
 * in turn, and opens as frames; a pack does not say so, and who opens it has to know. The loops of a 'smpl' chunk go with it; the rate does not, for a pack has none. Files of
 * the extensible format are read too, and files that were written to a pipe.
 *
 * A WAV file may have samples of -32768, and a pack may not: an instrument negates samples, and this one has no
 * opposite. The sound is sealed as it is or not at all, unless the user says --raise.
 */
#include "files.h"

static const char usage[] =
    "usage: wav_to_pack [--cipher trivium|enocoro|triad] [--stereo] [--raise]\n"
    "                   KEYS KEY_NUMBER VALUE_HEX NAME IN.wav OUT.pack\n"
    "  --cipher    the cipher that the pack is under, trivium if it is not said; with triad the pack has a tag, by\n"
    "              which a change is noticed\n"
    "  --stereo    the sound has two channels: the pack has a left sample and a right one in turn\n"
    "  --raise     seals samples of -32768, which a pack does not hold, as -32767, and prints how many there were\n"
    "  KEYS        a file of 168 bytes: four keys of ten bytes each, for trivium, then four of 16 bytes each, for\n"
    "              enocoro, and four of 16 bytes each, for triad; those that are not used may be zeros\n"
    "  KEY_NUMBER  which of the cipher's keys, 0 to 3\n"
    "  VALUE_HEX   the initial value: for trivium ten bytes as 20 hex digits, for enocoro eight bytes as 16, for\n"
    "              triad twelve bytes as 24.\n"
    "              It must never be used twice under a key: two packs that share both give their sounds away to\n"
    "              anyone who has the two files\n"
    "  NAME        up to 32 letters, digits, spaces and signs of ASCII";

enum {
    RIFF_HEAD = 12,
    CHUNK_HEAD = 8,
    UNKNOWN_LEAST = 0x7FFFF000, /* a length from here on, or one of 0, was not known when it was written */
    FMT_BYTES = 16,
    FMT_EXTENSIBLE_BYTES = 40,
    PCM = 1,
    EXTENSIBLE = 0xFFFE, /* the format itself stands further behind, with what belongs to it */
    SAMPLE_BITS = 16,
    SAMPLE_BYTES = 2,
    LOWEST_SAMPLE = INT16_MIN,
    SMPL_HEAD = 36,
    SMPL_LOOP = 24,
    FORWARD = 0,
    VALUE_ROOM = 64
};

struct sound {
    uint32_t channels;
    int16_t *samples;
    size_t sample_count;
    uint32_t *loops; /* starts and ends in turn, in samples */
    size_t loop_count;
};

struct chunk {
    const uint8_t *body; /* NULL: there is none */
    size_t length;
};

/* The numbers of a WAV file have their least significant byte first. */
static uint32_t wav_number(const uint8_t *bytes, int count)
{
    uint32_t number = 0;
    for (int i = 0; i < count; i++) number |= (uint32_t)bytes[i] << (8 * i);
    return number;
}

/* A program that writes to a pipe can't go back to a length that it did not know. */
static bool is_unknown(size_t length)
{
    return length == 0 || length >= UNKNOWN_LEAST;
}

/* What the WAV file says of its length, without its first chunk's head. */
static size_t said_length(const struct file *wav)
{
    return wav_number(wav->bytes + 4, 4);
}

/* Where the WAV file ends. What some programs hang behind it is not looked at. */
static size_t end_of(const struct file *wav)
{
    size_t end = CHUNK_HEAD + said_length(wav);
    return is_unknown(said_length(wav)) || end > wav->length ? wav->length : end;
}

/* Samples of unknown length go to the end of the file. None at all are just that if the file says that it goes on. */
static bool is_to_the_end(const struct file *wav, size_t at, size_t length)
{
    bool goes_on = !is_unknown(said_length(wav)) && at + CHUNK_HEAD < end_of(wav);
    return memcmp(wav->bytes + at, "data", 4) == 0 && is_unknown(length) && !(length == 0 && goes_on);
}

/* The first chunk of that name. Each begins at an even place. */
static struct chunk find_chunk(const struct file *wav, const char *id)
{
    size_t end = end_of(wav);
    for (size_t at = RIFF_HEAD; at + CHUNK_HEAD <= end;) {
        size_t length = wav_number(wav->bytes + at + 4, 4);
        size_t body = at + CHUNK_HEAD;
        if (is_to_the_end(wav, at, length)) length = wav->length - body;
        else if (length > end - body) stop("%s ends inside the chunk that begins at byte %zu", wav->path, at);
        if (memcmp(wav->bytes + at, id, 4) == 0) return (struct chunk){wav->bytes + body, length};
        at = body + length + length % 2;
    }
    return (struct chunk){NULL, 0};
}

/* The format's number; of an extensible format the one with which its identifier begins. */
static unsigned format_of(const char *path, struct chunk fmt)
{
    static const uint8_t rest[] = {0, 0, 0, 0, 0x10, 0, 0x80, 0, 0, 0xAA, 0, 0x38, 0x9B, 0x71};
    unsigned format = wav_number(fmt.body, 2);
    if (format != EXTENSIBLE) return format;
    if (fmt.length < FMT_EXTENSIBLE_BYTES)
        stop("%s has a chunk 'fmt ' of %zu bytes, and the extensible format has at least %d", path, fmt.length,
             FMT_EXTENSIBLE_BYTES);
    if (memcmp(fmt.body + 26, rest, sizeof rest) != 0)
        stop("%s is not plain PCM: its extensible format is none of the numbered ones", path);
    return wav_number(fmt.body + 24, 2);
}

static void check_bits(const char *path, unsigned bits)
{
    if (bits != SAMPLE_BITS) stop("%s has samples of %u bits, and a pack holds 16: convert it first", path, bits);
}

static void check_channels(const char *path, unsigned channels, unsigned wanted)
{
    if (channels == wanted) return;
    stop(wanted == 1 ? "%s has %u channels, and a pack holds one, or with --stereo two"
                     : "%s has %u channels, and --stereo is for two", path, channels);
}

static void check_format(const char *path, struct chunk fmt, unsigned channels)
{
    if (fmt.body == NULL || fmt.length < FMT_BYTES) stop("%s has no whole chunk 'fmt ', which says its format", path);
    unsigned format = format_of(path, fmt);
    if (format != PCM) stop("%s is not plain PCM, which is format 1: it has format %u", path, format);
    check_channels(path, wav_number(fmt.body + 2, 2), channels);
    check_bits(path, wav_number(fmt.body + 14, 2));
    if (wav_number(fmt.body, 2) == EXTENSIBLE) check_bits(path, wav_number(fmt.body + 18, 2)); /* those in use */
}

static void read_samples(const char *path, struct chunk data, struct sound *sound)
{
    if (data.body == NULL) stop("%s has no samples: there is no chunk 'data'", path);
    if (data.length % SAMPLE_BYTES != 0) stop("%s ends with half a sample", path);
    if (data.length / SAMPLE_BYTES % sound->channels != 0) stop("%s ends with half a frame", path);
    sound->sample_count = data.length / SAMPLE_BYTES;
    sound->samples = room_for(sound->sample_count, sizeof *sound->samples);
    for (size_t i = 0; i < sound->sample_count; i++)
        sound->samples[i] = (int16_t)wav_number(data.body + SAMPLE_BYTES * i, SAMPLE_BYTES);
}

/* Where a frame begins, in samples; one so far behind that this has no number is past the end of any sound. */
static uint32_t in_samples(uint32_t frame, uint32_t channels)
{
    return frame > UINT32_MAX / channels ? UINT32_MAX : frame * channels;
}

/* In a WAV file a loop is in frames and ends with its end, in a pack it is in samples and ends before it. The highest
 * end becomes 0, which the library refuses. */
static void read_loops(const char *path, struct chunk smpl, struct sound *sound)
{
    sound->loop_count = 0;
    if (smpl.body != NULL) {
        if (smpl.length < SMPL_HEAD) stop("%s has a chunk 'smpl' that is too short", path);
        sound->loop_count = wav_number(smpl.body + 28, 4);
        if (sound->loop_count > (smpl.length - SMPL_HEAD) / SMPL_LOOP)
            stop("%s has a chunk 'smpl' too short for its %zu loops", path, sound->loop_count);
    }
    sound->loops = room_for(2 * sound->loop_count, sizeof *sound->loops);
    for (size_t i = 0; i < sound->loop_count; i++) {
        const uint8_t *loop = smpl.body + SMPL_HEAD + SMPL_LOOP * i;
        if (wav_number(loop + 4, 4) != FORWARD) stop("%s has a loop that is not played forward, loop %zu", path, i + 1);
        sound->loops[2 * i] = in_samples(wav_number(loop + 8, 4), sound->channels);
        sound->loops[2 * i + 1] = in_samples(wav_number(loop + 12, 4) + 1, sound->channels);
    }
}

static void read_wav(const char *path, struct sound *sound)
{
    struct file wav = read_file(path);
    if (wav.length < RIFF_HEAD || memcmp(wav.bytes, "RIFF", 4) != 0 || memcmp(wav.bytes + 8, "WAVE", 4) != 0)
        stop("%s is not a WAV file", path);
    check_format(path, find_chunk(&wav, "fmt "), sound->channels);
    read_samples(path, find_chunk(&wav, "data"), sound);
    read_loops(path, find_chunk(&wav, "smpl"), sound);
    free(wav.bytes);
}

/* The first sample from a place on that a pack does not hold, or the sample count if there is none. */
static size_t next_lowest(const struct sound *sound, size_t at)
{
    while (at < sound->sample_count && sound->samples[at] != LOWEST_SAMPLE) at++;
    return at;
}

static size_t count_lowest(const struct sound *sound)
{
    size_t count = 0;
    for (size_t at = next_lowest(sound, 0); at < sound->sample_count; at = next_lowest(sound, at + 1)) count++;
    return count;
}

/* A step of one in 65,536 is not heard. Answers how many samples were raised. */
static size_t raise_lowest(struct sound *sound)
{
    size_t raised = 0;
    for (size_t at = next_lowest(sound, 0); at < sound->sample_count; at = next_lowest(sound, at + 1)) {
        sound->samples[at] = LOWEST_SAMPLE + 1;
        raised++;
    }
    return raised;
}

static int hex_digit(char letter)
{
    static const char digits[] = "0123456789abcdef0123456789ABCDEF";
    const char *place = letter == '\0' ? NULL : strchr(digits, letter);
    return place == NULL ? -1 : (int)(place - digits) % 16;
}

/* Whether it has as many bytes as its cipher wants is for the library to say. */
static size_t read_value(const char *hex, const struct cipher *cipher, uint8_t value[VALUE_ROOM])
{
    size_t digits = strlen(hex), wanted = 2 * cipher->value_bytes;
    if (digits % 2 != 0 || digits > 2 * VALUE_ROOM)
        stop("VALUE_HEX is %zu hex digits for %s, and '%s' has %zu", wanted, cipher->name, hex, digits);
    for (size_t i = 0; i < digits; i += 2) {
        int high = hex_digit(hex[i]), low = hex_digit(hex[i + 1]);
        if (high < 0 || low < 0)
            stop("VALUE_HEX is %zu hex digits for %s, and '%s' has others", wanted, cipher->name, hex);
        value[i / 2] = (uint8_t)(16 * high + low);
    }
    return digits / 2;
}

/* Whether there is such a key is for the library to say, which takes any byte. */
static uint8_t read_key_number(const char *text)
{
    uint32_t number;
    if (!read_number(text, UINT8_MAX, &number)) stop("KEY_NUMBER is a number from 0 to 3, not '%s'", text);
    return (uint8_t)number;
}

static const struct cipher *read_cipher(const char *name)
{
    for (size_t i = 0; i < CIPHERS; i++)
        if (strcmp(ciphers[i].name, name) == 0) return &ciphers[i];
    stop("--cipher is trivium, enocoro or triad, not '%s'", name);
}

struct options {
    bool raises;
    uint32_t channels;
    const struct cipher *cipher;
    int words; /* how many they take */
};

/* Options stand before all other words, in any order. */
static struct options read_options(int words, char **word)
{
    struct options options = {.channels = 1, .cipher = &ciphers[0]};
    for (;;) {
        int at = 1 + options.words;
        if (at < words && strcmp(word[at], "--raise") == 0) {
            options.raises = true;
            options.words += 1;
        } else if (at < words && strcmp(word[at], "--stereo") == 0) {
            options.channels = 2;
            options.words += 1;
        } else if (at + 1 < words && strcmp(word[at], "--cipher") == 0) {
            options.cipher = read_cipher(word[at + 1]);
            options.words += 2;
        } else return options;
    }
}

/* All that sealing is given. */
struct order {
    struct file keys;
    const struct cipher *cipher;
    uint8_t key_number;
    uint8_t value[VALUE_ROOM];
    size_t value_length;
    const char *name;
    const char *wav_path;
    struct sound sound;
};

_Noreturn static void refused_name(uint8_t no, const char *name)
{
    size_t at = 0;
    while (name[at] >= ' ' && name[at] <= '~') at++;
    refused(no, "byte %zu of NAME is %u, and a name has bytes from 32 to 126", at + 1, (uint8_t)name[at]);
}

_Noreturn static void refused_loop(uint8_t no, const struct order *order)
{
    const struct sound *sound = &order->sound;
    const uint32_t *loop = sound->loops;
    while (loop[0] < loop[1] && loop[1] <= sound->sample_count) loop += 2;
    refused(no, "loop %zu of %s goes from sample %u to sample %u, counted from 0, of %zu in all",
            (size_t)(loop - sound->loops) / 2 + 1, order->wav_path, loop[0], loop[1] - 1, sound->sample_count);
}

_Noreturn static void refused_lowest(uint8_t no, const struct order *order)
{
    const struct sound *sound = &order->sound;
    refused(no, "samples of -32768 in %s: %zu, the first is sample %zu, counted from 0, of %zu in all", order->wav_path,
            count_lowest(sound), next_lowest(sound, 0), sound->sample_count);
}

/* The library judges; what it has no words for are the files and the figures. */
_Noreturn static void refused_order(uint8_t no, const struct order *order)
{
    switch (no) {
    case SEMIVRAKH_BAD_KEY: refused_keys(no, &order->keys);
    case SEMIVRAKH_BAD_NAME: refused_name(no, order->name);
    case SEMIVRAKH_BAD_LOOP: refused_loop(no, order);
    case SEMIVRAKH_LOWEST_SAMPLE: refused_lowest(no, order);
    case SEMIVRAKH_LONG_NAME:
        refused(no, "NAME has %zu bytes, and a pack's name at most %d", strlen(order->name), SEMIVRAKH_NAME_MOST);
    case SEMIVRAKH_BAD_VALUE:
        refused(no, "VALUE_HEX has %zu bytes, and an initial value for %s has %zu", order->value_length,
                order->cipher->name, order->cipher->value_bytes);
    case SEMIVRAKH_BAD_KEY_NUMBER:
        refused(no, "KEY_NUMBER is %d, and %s has the keys 0 to 3 for %s", order->key_number, order->keys.path,
                order->cipher->name);
    case SEMIVRAKH_MANY_SAMPLES:
        refused(no, "%s has %zu samples, and a pack holds at most %d", order->wav_path, order->sound.sample_count,
                SEMIVRAKH_SAMPLES_MOST);
    case SEMIVRAKH_MANY_LOOPS:
        refused(no, "%s has %zu loops, and a pack holds at most %d", order->wav_path, order->sound.loop_count,
                SEMIVRAKH_LOOPS_MOST);
    default: refused(no, "%s cannot be sealed", order->wav_path);
    }
}

int main(int words, char **word)
{
    struct options options = read_options(words, word);
    words -= options.words;
    word += options.words; /* so the words behind the options have their usual places */
    if (words != 7) stop("%s", usage);
    struct order order = {.keys = read_file(word[1]), .cipher = options.cipher, .key_number = read_key_number(word[2]),
                          .name = word[4], .wav_path = word[5], .sound.channels = options.channels};
    order.value_length = read_value(word[3], order.cipher, order.value);
    struct sound *sound = &order.sound;
    read_wav(order.wav_path, sound);
    size_t raised = options.raises ? raise_lowest(sound) : 0;

    static uint8_t pack[SEMIVRAKH_PACK_MOST];
    size_t pack_length;
    uint8_t no = semivrakh_pack_seal((const uint8_t *)order.name, strlen(order.name), order.keys.bytes,
                                     order.keys.length, order.cipher->key_count, order.key_number, order.value,
                                     order.value_length, sound->samples, sound->sample_count, sound->loops,
                                     2 * sound->loop_count, pack, sizeof pack, &pack_length);
    if (no != SEMIVRAKH_OK) refused_order(no, &order);
    write_file(word[6], pack, pack_length);
    printf("samples %zu\nloops %zu\nbytes %zu\n", sound->sample_count, sound->loop_count, pack_length);
    if (options.raises) printf("raised %zu\n", raised);
    free(sound->samples);
    free(sound->loops);
    free(order.keys.bytes);
    return 0;
}
