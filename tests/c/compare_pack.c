/* Input for opening packs, as samples and as frames of floats, and for sealing them. */
#include <inttypes.h>
#include <stdio.h>
#include <string.h>

#include "calls.h"
#include "families.h"
#include "faults.h"
#include "model.h"
#include "random.h"

enum { NAME_ROOM = 256, LOOPS_ROOM = 256, EXTRA_MOST = 40, VALUE_MOST = 12, TAG_BYTES = 8 };
/* All keys; and room for a length of keys that is wrong and far above. */
enum { KEYS = 4, KEYS_BYTES = SEMIVRAKH_KEYS_BYTES, KEYS_ROOM = KEYS_BYTES + 300 };
enum { LOWEST_SAMPLE = -32768, LOWEST_WORD = 0x8000, WORD_ABOVE = 0x8001 };
enum { SAMPLES_ROOM = SEMIVRAKH_SAMPLES_MOST + EXTRA_MOST };
/* A file without its samples, and one with them. */
enum { REST_ROOM = 1 + NAME_ROOM + 2 + VALUE_MOST + 4 + 1 + 8 * LOOPS_ROOM + 1 + TAG_BYTES + EXTRA_MOST };
enum { FILE_ROOM = REST_ROOM + 2 * SAMPLES_ROOM };

/* The parts of a pack, in rule or not. */
struct parts {
    uint8_t name[NAME_ROOM];
    size_t name_length;
    unsigned cipher; /* one of MODEL_CIPHERS */
    uint8_t key_count, key_number, value[VALUE_MOST];
    uint32_t claimed_samples; /* what the count says */
    size_t samples;           /* how many follow */
    uint32_t loops[2 * LOOPS_ROOM];
    size_t loop_numbers;
    uint8_t tag_count; /* what the count of a tag says */
    size_t extra;
};

static struct parts parts;
static uint8_t keys[KEYS_ROOM]; /* what a file of the parts is under */
static uint8_t file[FILE_ROOM];
static size_t file_length;
static size_t opened[SEMIVRAKH_OPENED_NUMBERS]; /* what the last accepted opening answered */

/* A file in pieces: of each section its count and then its body. The last two only some ciphers have. */
enum { NAME_COUNT, NAME, KEY_COUNT, KEY, SAMPLE_COUNT, SAMPLES, LOOP_COUNT, LOOPS, TAG_COUNT, TAG, PIECES };
enum { SECTIONS = PIECES / 2, TAG_SECTION = TAG_COUNT / 2 };
static const char *const piece_names[PIECES] = {
    "name count", "name", "key count", "key", "sample count", "samples", "loop count", "loops", "tag count", "tag",
};
static uint64_t times_cut[PIECES];

/* How often a pack under each cipher was opened, as samples and as frames, how often one that opens as samples was
 * refused as frames for its odd count, and how often one was sealed; and how often the parts of one were refused for
 * another key count, and for an initial value of another length. */
static uint64_t times_opened[MODEL_CIPHERS], times_framed[MODEL_CIPHERS], times_odd[MODEL_CIPHERS];
static uint64_t times_sealed[MODEL_CIPHERS];
static uint64_t times_not_counted[MODEL_CIPHERS], times_not_valued[MODEL_CIPHERS];

/* Of tagged packs with one bit turned in each piece: how often so, and how often that was told by the tag alone. How
 * often a bit of the key was turned, and how often a tag's count was another. */
static uint64_t times_damaged[PIECES], times_told_by_tag[PIECES], times_other_key, times_other_tag_count;

/* The sound to be sealed, or the last one opened. No sample is the lowest unless it is put there. */
static int16_t sound[SAMPLES_ROOM];

/* Eight samples may be worked on at once, and the rest behind the last whole eight one by one. That is no rule of the
 * paper, so a sample of -32,768 and a word of 80 00 come at each place of an eight, and in the rest. */
enum { EIGHT = 8, IN_REST = EIGHT, STANDS, SMALL_MOST = 4 * EIGHT };
static uint64_t times_refused_at[STANDS], times_read_at[STANDS];
static uint64_t times_same, times_raised; /* how a pack came back that was opened and sealed again */

static size_t stand_of(size_t place, size_t count) {
    return place / EIGHT < count / EIGHT ? place % EIGHT : IN_REST;
}

/* Loops in rule, among at least one sample. */
static void choose_loops(size_t numbers, uint32_t samples) {
    parts.loop_numbers = numbers;
    for (size_t i = 0; i < numbers; i += 2) {
        uint32_t end = random_once_in(3) ? samples : random_between(1, samples);
        parts.loops[i] = random_once_in(3) ? end - 1 : random_below(end);
        parts.loops[i + 1] = end;
    }
}

static void choose_name(size_t length) {
    parts.name_length = length;
    for (size_t i = 0; i < length; i++) parts.name[i] = (uint8_t)random_between(32, 126);
    if (length > 0 && random_once_in(4)) parts.name[random_below((uint32_t)length)] = random_once_in(2) ? 32 : 126;
}

/* The cipher that the parts are of. */
static const struct model_cipher *cipher(void) {
    return &model_ciphers[parts.cipher];
}

/* Any other than that. */
static const struct model_cipher *other_cipher(void) {
    return &model_ciphers[(parts.cipher + random_between(1, MODEL_CIPHERS - 1)) % MODEL_CIPHERS];
}

static void choose_key(unsigned which) {
    parts.cipher = which;
    parts.key_count = cipher()->key_count;
    parts.key_number = (uint8_t)random_below(KEYS);
    parts.tag_count = (uint8_t)cipher()->tag_bytes;
    memcpy(parts.value, noise(VALUE_MOST), VALUE_MOST);
    memcpy(keys, noise(sizeof keys), sizeof keys);
}

static void choose_parts(size_t name_length, size_t samples, size_t loops) {
    choose_name(name_length);
    choose_key(random_below(MODEL_CIPHERS));
    parts.claimed_samples = (uint32_t)samples;
    parts.samples = samples;
    choose_loops(samples == 0 ? 0 : 2 * loops, (uint32_t)samples);
    parts.extra = 0;
}

static void choose_small_parts(void) {
    choose_parts(random_between(1, 6), random_between(1, 5), random_between(1, 3));
}

/* One sample more: an even count becomes odd, and an odd one even. Loops stay in rule. */
static void add_sample(void) {
    parts.samples++;
    parts.claimed_samples++;
}

static void spoil_name(void) {
    static const uint8_t outside[] = {31, 127, 0, 255, 128, 10};
    size_t place = random_once_in(3) ? parts.name_length - 1 : random_below((uint32_t)parts.name_length);
    parts.name[place] = outside[random_below(sizeof outside)];
}

/* A key count of no cipher, often one beside those that are. */
static void spoil_key_count(void) {
    static const uint8_t beside[] = {8, 10, 12, 14};
    parts.key_count = beside[random_below(sizeof beside)];
    if (random_once_in(2)) return;
    do parts.key_count = (uint8_t)random_next();
    while (model_cipher_of(parts.key_count) != MODEL_CIPHERS);
}

/* Now and then the keys of one cipher alone, or those of all ciphers but the last. */
static size_t wrong_keys_length(void) {
    if (random_once_in(2)) return wrong_length(KEYS_BYTES);
    const struct model_cipher *some = &model_ciphers[random_below(MODEL_CIPHERS)];
    return some->keys_at > 0 && random_once_in(2) ? some->keys_at : KEYS * some->key_bytes;
}

static struct run keys_but_for(faults set) {
    return run_of(keys, has(set, 1) ? wrong_keys_length() : KEYS_BYTES);
}

/* Now and then the length for another cipher. */
static size_t wrong_value_length(void) {
    return random_once_in(3) ? other_cipher()->value_bytes : wrong_length(cipher()->value_bytes);
}

static void spoil_loop(uint32_t samples) {
    uint32_t *loop = parts.loops + 2 * random_below((uint32_t)(parts.loop_numbers / 2));
    switch (random_below(5)) {
        case 0: loop[0] = loop[1]; break;
        case 1: loop[0] = loop[1] + random_between(1, 9); break;
        case 2: loop[1] = samples + 1; break;
        case 3: loop[1] = UINT32_MAX - random_below(2); break;
        default: loop[0] = loop[1] = 0; break;
    }
}

static size_t put_number(size_t at, size_t bytes, uint32_t number) {
    model_write_number(file + at, bytes, number);
    return at + bytes;
}

static size_t put_bytes(size_t at, const uint8_t *bytes, size_t count) {
    memcpy(file + at, bytes, count);
    return at + count;
}

/* Where a piece ends in a file of these parts. */
static size_t piece_end(size_t piece) {
    const size_t lengths[PIECES] = {
        1, parts.name_length, 1, 1 + cipher()->value_bytes, 4, 2 * parts.samples, 1, 4 * parts.loop_numbers,
        cipher()->tag_bytes > 0 ? 1 : 0, cipher()->tag_bytes,
    };
    size_t end = 0;
    for (size_t i = 0; i <= piece; i++) end += lengths[i];
    return end;
}

/* How many pieces a file of these parts has. */
static size_t pieces(void) {
    return cipher()->tag_bytes > 0 ? PIECES : TAG_COUNT;
}

/* What lies over the samples of a file of the parts. A key number out of rule is brought into it. */
static uint8_t keystream[2 * SAMPLES_ROOM];

static void make_keystream(void) {
    union model_generator generator;
    model_cipher_start(&generator, cipher(), keys, parts.key_number % KEYS, parts.value);
    for (size_t i = 0; i < 2 * parts.samples; i++) keystream[i] = cipher()->next_byte(&generator);
}

/* The tag of what stands in a file of the parts, where there is one. It wants the keystream. */
static void put_tag(void) {
    static uint8_t associated[REST_ROOM], plain[2 * SAMPLES_ROOM];
    size_t body = piece_end(SAMPLE_COUNT), behind = piece_end(SAMPLES), rest = piece_end(LOOPS) - behind;
    if (cipher()->tag_bytes == 0) return;
    memcpy(associated, file, body);
    memcpy(associated + body, file + behind, rest);
    for (size_t i = 0; i < 2 * parts.samples; i++) plain[i] = file[body + i] ^ keystream[i];
    cipher()->tag(file + piece_end(TAG_COUNT), model_cipher_key(cipher(), keys, parts.key_number % KEYS), parts.value,
                  associated, body + rest, plain, 2 * parts.samples);
}

static void write_file(void) {
    size_t at = put_number(0, 1, (uint32_t)parts.name_length);
    at = put_bytes(at, parts.name, parts.name_length);
    at = put_number(at, 1, parts.key_count);
    at = put_number(at, 1, parts.key_number);
    at = put_bytes(at, parts.value, cipher()->value_bytes);
    at = put_number(at, 4, parts.claimed_samples);
    at = put_bytes(at, noise(2 * parts.samples), 2 * parts.samples);
    at = put_number(at, 1, (uint32_t)(parts.loop_numbers / 2));
    for (size_t i = 0; i < parts.loop_numbers; i++) at = put_number(at, 4, parts.loops[i]);
    if (cipher()->tag_bytes > 0) {
        at = put_number(at, 1, parts.tag_count) + cipher()->tag_bytes;
        make_keystream();
        put_tag();
    }
    file_length = put_bytes(at, noise(parts.extra), parts.extra);
}

static void claim_many_samples(void) {
    static const uint32_t too_many[] = {16385, 16386, 32768, 65536, 0x80000000, 0x80000001, UINT32_MAX};
    parts.claimed_samples = too_many[random_below(sizeof too_many / sizeof *too_many)];
    if (parts.claimed_samples == 16385 && random_once_in(4)) parts.samples = 16385;
}

static struct run lent_file(void) {
    return run_of(file, file_length);
}

/* Where an accepted file says its cipher. */
static uint8_t opened_key_count(void) {
    return file[opened[SEMIVRAKH_OPENED_VALUE_AT] - 2];
}

/* Which cipher that is. */
static unsigned opened_cipher(void) {
    unsigned which = model_cipher_of(opened_key_count());
    if (which == MODEL_CIPHERS) differ("a pack opens, and two bytes before its initial value stands no cipher");
    return which;
}

/* Keeps what an accepted opening wrote. Each sample of it can be negated. */
static void keep_opened(void) {
    memcpy(opened, after(OPENED_ANSWER), sizeof opened);
    times_opened[opened_cipher()]++;
    size_t count = opened[SEMIVRAKH_OPENED_SAMPLES];
    memcpy(sound, after(OPENED_SOUND), 2 * count);
    for (size_t i = 0; i < count; i++) {
        if (sound[i] == LOWEST_SAMPLE) differ("sample %zu of an opened pack has no opposite", i);
    }
}

static uint8_t open_samples(struct run lent_keys, size_t sample_room, size_t answer_room) {
    uint8_t no = compare_pack_open(lent_file(), lent_keys, room(sample_room), room(answer_room));
    if (no == 0) keep_opened();
    return no;
}

/* The frames just opened are the samples opened before, as the compiler divides these. Their bits are compared, so that
 * a zero has its sign looked at too. */
static void look_at_frames(void) {
    const float *frames = after(OPENED_SOUND);
    if (memcmp(after(OPENED_ANSWER), opened, sizeof opened) != 0) {
        differ("a pack is opened as frames with other numbers than as samples");
    }
    for (size_t i = 0; i < opened[SEMIVRAKH_OPENED_SAMPLES]; i++) {
        float due = (float)sound[i] / 32768.0f;
        if (memcmp(&frames[i], &due, sizeof due) != 0) differ("sample %zu, %d, opens as %a", i, sound[i], frames[i]);
    }
}

static bool is_odd(size_t count) {
    return count % 2 == 1;
}

/* Opens the file as frames, in the same room in which opening it as samples answered `opening`. */
static void open_frames(uint8_t opening, struct run lent_keys, size_t float_room, size_t answer_room) {
    uint8_t no = compare_pack_open_stereo(lent_file(), lent_keys, room(float_room), room(answer_room));
    bool odd = no == SEMIVRAKH_ODD_SAMPLES;
    if (no != opening && !(odd && (opening == 0 || opening == SEMIVRAKH_NO_ROOM))) {
        differ("opening a pack as samples answers %d, and as frames %d", opening, no);
    }
    if (no == 0) look_at_frames();
    if (no == 0) times_framed[opened_cipher()]++;
    if (odd && opening == 0) times_odd[opened_cipher()]++;
}

/* Opens it in both ways. Of an accepted file it is known whether its count is odd. */
static uint8_t open_file(struct run lent_keys, size_t sample_room, size_t answer_room) {
    uint8_t no = open_samples(lent_keys, sample_room, answer_room);
    if (no == 0) plan_number(is_odd(opened[SEMIVRAKH_OPENED_SAMPLES]) ? SEMIVRAKH_ODD_SAMPLES : 0);
    open_frames(no, lent_keys, sample_room, answer_room);
    return no;
}

static bool is_cut(uint8_t no) {
    return (no >= SEMIVRAKH_CUT_IN_NAME && no <= SEMIVRAKH_CUT_IN_LOOPS) || no == SEMIVRAKH_CUT_IN_TAG;
}

/* What a file lacks that surveying answered `no` to. With 45 it lacks nothing if the tag's count is another. */
static size_t lack_of(struct run some_file, uint8_t no) {
    size_t lack = compare_pack_lacks(some_file);
    bool must_lack = is_cut(no) && no != SEMIVRAKH_CUT_IN_TAG;
    if (must_lack && lack == 0) differ("a file that is refused with %d lacks nothing", no);
    if (!is_cut(no) && lack > 0) differ("a file lacks %zu bytes, and surveying it answers %d", lack, no);
    return lack;
}

/* The file with further bytes behind it. */
static uint8_t longer[FILE_ROOM];
static size_t longer_length;

/* So many bytes more, whatever they are. Hands back the number for the file with them, and in `*lack` what it lacks. */
static uint8_t lengthen(size_t more, size_t *lack) {
    memcpy(longer + longer_length, noise(more), more);
    longer_length += more;
    uint8_t no = compare_pack_survey(run_of(longer, longer_length), room(SEMIVRAKH_OPENED_NUMBERS));
    *lack = lack_of(run_of(longer, longer_length), no);
    return no;
}

/* What lacking means: with fewer bytes more the file is refused with the same number, and lacks as many fewer. With all
 * of them it isn't; but one that ended in a count may end in the body that the count promises. Answers if it does. A
 * tag's count may be another, and the file then lacks nothing. */
static bool ends_in_body_then(uint8_t no, size_t lack) {
    size_t fewer = shorter_than(lack), rest, body;
    memcpy(longer, file, file_length);
    longer_length = file_length;
    if (lengthen(fewer, &rest) != no || rest != lack - fewer) {
        differ("a file lacks %zu bytes, and not %zu when it has %zu of them", lack, lack - fewer, fewer);
    }
    if (lengthen(rest, &body) != no || body == 0) return false;
    if (lengthen(body, &rest) == no) differ("a file has all that it lacks, and is still refused with %d", no);
    return true;
}

/* What was last found of the file. */
static struct {
    uint8_t no;
    size_t lack;
    bool ends_in_body_then; /* when it is cut and gets what it lacks */
} surveyed;

/* Surveys the file that opening answered `opening` to. */
static void survey_file(uint8_t opening, size_t answer_room) {
    surveyed.no = compare_pack_survey(lent_file(), room(answer_room));
    if (surveyed.no == 0 && opening == 0 && memcmp(after(1), opened, sizeof opened) != 0) {
        differ("a pack is surveyed with other numbers than it is opened with");
    }
    surveyed.lack = lack_of(lent_file(), surveyed.no);
    surveyed.ends_in_body_then = surveyed.lack > 0 && ends_in_body_then(surveyed.no, surveyed.lack);
}

/* The piece that a front of such a file ends in. */
static size_t piece_cut(size_t front) {
    size_t piece = 0;
    while (piece < PIECES - 1 && piece_end(piece) <= front) piece++;
    return piece;
}

static uint8_t number_of_cut(size_t piece) {
    static const uint8_t numbers[SECTIONS] = {
        SEMIVRAKH_CUT_IN_NAME, SEMIVRAKH_CUT_IN_KEY, SEMIVRAKH_CUT_IN_SAMPLES, SEMIVRAKH_CUT_IN_LOOPS,
        SEMIVRAKH_CUT_IN_TAG,
    };
    return numbers[piece / 2];
}

/* Whether a file of these parts reaches to a tag's count, and this is another. */
static bool has_other_tag_count(void) {
    return pieces() > TAG_COUNT && file_length >= piece_end(TAG_COUNT) && parts.tag_count != TAG_BYTES;
}

/* A front of a file of these parts, refused as cut, was refused for the piece that it ends in. */
static void look_at_cut(void) {
    if (!is_cut(surveyed.no)) return;
    if (surveyed.no == SEMIVRAKH_CUT_IN_TAG && has_other_tag_count()) {
        if (surveyed.lack > 0) differ("a file with another count of its tag lacks %zu bytes", surveyed.lack);
        times_other_tag_count++;
        return;
    }
    size_t piece = piece_cut(file_length), lack = piece_end(piece) - file_length;
    const char *name = piece_names[piece];
    bool in_body = piece % 2 == 1;
    if (surveyed.no != number_of_cut(piece)) differ("a file ends in its %s, and the answer is %d", name, surveyed.no);
    if (surveyed.lack != lack) differ("a file lacks %zu bytes, and %zu of its %s", surveyed.lack, lack, name);
    if (in_body && surveyed.ends_in_body_then) differ("a file that has its whole %s is refused as cut in it", name);
    times_cut[piece]++;
}

/* Leaves of the file a part of this piece, or nothing of it. */
static void cut_in(size_t piece) {
    size_t end = piece_end(piece), begin = piece == 0 ? 0 : piece_end(piece - 1);
    file_length = begin + shorter_than(end - begin);
}

/* Cuts the file in the first section that the set wants cut: in its body, if the count is to be seen. A tag's section
 * need not be cut if its count is another. */
static void cut_as(faults set) {
    static const uint8_t of_count[SECTIONS] = {11, 13, 15, 16};
    size_t section = 0;
    while (section < SECTIONS && !has(set, number_of_cut(2 * section))) section++;
    if (section == SECTIONS || (section == TAG_SECTION && has_other_tag_count())) return;
    cut_in(2 * section + (has(set, of_count[section]) || random_once_in(2)));
}

/* A count that is none of a tag, often one beside it. */
static void spoil_tag_count(void) {
    static const uint8_t beside[] = {0, 7, 9, 16, 64};
    do parts.tag_count = random_once_in(2) ? beside[random_below(sizeof beside)] : (uint8_t)random_next();
    while (parts.tag_count == TAG_BYTES);
}

static void turn_a_bit(uint8_t *byte) {
    *byte ^= (uint8_t)(1 << random_below(8));
}

/* A bit of a tagged file or of its key, turned so that nothing but the tag can tell. */
static void spoil_tag(void) {
    uint8_t *own_key = keys + cipher()->keys_at + cipher()->key_bytes * (parts.key_number % KEYS);
    switch (random_below(5)) {
        case 0: turn_a_bit(file + piece_end(SAMPLE_COUNT) + random_below((uint32_t)(2 * parts.samples))); break;
        case 1: turn_a_bit(file + piece_end(KEY) - 1 - random_below((uint32_t)cipher()->value_bytes)); break;
        case 2: turn_a_bit(own_key + random_below((uint32_t)cipher()->key_bytes)); break;
        default: turn_a_bit(file + piece_end(TAG_COUNT) + random_below(TAG_BYTES)); break;
    }
}

/* For each number that tells of a key count or of an initial value, the cipher that the parts are of. */
static void count_refused_key(uint8_t no) {
    if (no == SEMIVRAKH_BAD_KEY_COUNT) times_not_counted[parts.cipher]++;
    if (no == SEMIVRAKH_BAD_VALUE) times_not_valued[parts.cipher]++;
}

/* The faults are those of opening as frames. Opening as samples doesn't list 35, and survey and loops, which take no
 * keys, list neither that nor 1 nor 38: these are passed over where their number is planned. */
static void open_with(faults set) {
    size_t sample_room, answer_room = enough(7);
    choose_small_parts();
    if (is_odd(parts.samples) != has(set, SEMIVRAKH_ODD_SAMPLES)) add_sample();
    if (has(set, SEMIVRAKH_CUT_IN_TAG) || has(set, SEMIVRAKH_WRONG_TAG)) choose_key(MODEL_TRIAD);
    if (has(set, 11)) choose_name(random_once_in(2) ? 33 : random_between(34, 255));
    if (has(set, 12)) spoil_name();
    if (has(set, 13)) spoil_key_count();
    if (has(set, 14)) parts.key_number = (uint8_t)(random_once_in(2) ? 4 : random_between(5, 255));
    if (has(set, 15)) claim_many_samples();
    if (has(set, 16)) choose_loops(2 * (random_once_in(2) ? 9 : random_between(10, 255)), (uint32_t)parts.samples);
    if (has(set, 17)) spoil_loop((uint32_t)parts.samples);
    if (has(set, SEMIVRAKH_CUT_IN_TAG) && random_once_in(3)) spoil_tag_count();
    if (has(set, 18)) parts.extra = random_once_in(2) ? 1 : random_between(2, EXTRA_MOST);
    sample_room = enough(parts.samples);
    if (has(set, 19)) {
        if (random_once_in(2)) sample_room = shorter_than(parts.samples);
        else answer_room = shorter_than(7);
    }
    write_file();
    if (has(set, SEMIVRAKH_WRONG_TAG)) spoil_tag();
    cut_as(set);
    struct run lent_keys = keys_but_for(set);
    plan_first(PACK_OPEN, set);
    uint8_t no = open_samples(lent_keys, sample_room, answer_room);
    count_refused_key(no);
    plan_first(PACK_OPEN_STEREO, set);
    open_frames(no, lent_keys, sample_room, answer_room);
    plan_first(PACK_SURVEY, set);
    survey_file(no, enough_but_for(set, 7));
    look_at_cut();
    plan_first(PACK_LOOPS, set);
    compare_pack_loops(lent_file(), room(enough_but_for(set, parts.loop_numbers)));
}

void opening_packs(void) {
    with_each_fault_set(PACK_OPEN_STEREO, 0, open_with);
}

/* What is wrong with a file is the same without keys, but for its tag; the room is another thing. */
static void plan_as_opening(uint8_t opening) {
    if (opening != 0 && opening != SEMIVRAKH_WRONG_TAG && opening != SEMIVRAKH_NO_ROOM) plan_number(opening);
}

static void read_file_in(size_t sample_room) {
    uint8_t no = open_file(keys_but_for(0), sample_room, enough(7));
    plan_as_opening(no);
    survey_file(no, enough_or_not(7));
    plan_as_opening(no);
    compare_pack_loops(lent_file(), room(enough_or_not(parts.loop_numbers)));
}

static void read_file(void) {
    read_file_in(enough(parts.samples));
}

/* What is left of a file of the parts, when it was cut. */
static void read_front(void) {
    plan_number(number_of_cut(piece_cut(file_length)));
    read_file();
    look_at_cut();
}

static void read_every_front(void) {
    size_t whole = file_length;
    for (file_length = 0; file_length < whole; file_length++) read_front();
}

static void read_lengthened(void) {
    size_t whole = file_length;
    for (size_t more = 1; more <= 3; more++) {
        file[whole + more - 1] = (uint8_t)random_next();
        file_length = whole + more;
        plan_number(18);
        read_file();
    }
    file_length = whole;
}

/* Under a larger count, the sample count is read two or four bytes behind its place. Its first two bytes are the low
 * ones of the true count, or those of the first sample, and make it too large if they aren't zeros. */
static uint8_t read_behind(void) {
    file[piece_end(SAMPLE_COUNT)] |= 1;
    return SEMIVRAKH_MANY_SAMPLES;
}

/* Under a smaller count, it is read as much before: it begins with the last bytes of the initial value, and with zeros
 * for these no samples and no loops are read, and what follows is more than a file without a tag has. */
static uint8_t read_before(size_t bytes) {
    bool zeros = random_once_in(2);
    uint8_t *last = file + piece_end(KEY) - bytes;
    if (zeros) memset(last, 0, bytes);
    else last[0] |= 1;
    return zeros ? SEMIVRAKH_MORE_BYTES : SEMIVRAKH_MANY_SAMPLES;
}

static void read_under_another_count(void) {
    choose_small_parts();
    const struct model_cipher *other = other_cipher();
    parts.key_count = other->key_count;
    write_file();
    size_t here = cipher()->value_bytes, there = other->value_bytes;
    plan_number(there > here ? read_behind() : read_before(here - there));
    read_file();
}

void packs_under_another_count(void) {
    for (int packs = 0; packs < 20; packs++) read_under_another_count();
}

void damaged_packs(void) {
    size_t samples = random_below(5);
    choose_parts(random_below(6), samples, random_below(3));
    write_file();
    plan_number(0);
    read_file();
    read_every_front();
    read_lengthened();
    file_length -= random_once_in(2) ? 0 : random_below((uint32_t)file_length);
    with_each_byte_damaged(file, file_length, read_file);
}

static uint8_t open_tagged(void) {
    return open_file(keys_but_for(0), enough(parts.samples), enough(7));
}

/* A bit of one byte turned: the file isn't opened, whatever that byte is. */
static void open_damaged_at(size_t place, unsigned bit) {
    uint8_t right = file[place];
    size_t piece = piece_cut(place); /* a front that ends before this byte ends in its piece */
    file[place] ^= (uint8_t)(1 << bit);
    if (piece == SAMPLES || piece == TAG) plan_number(SEMIVRAKH_WRONG_TAG);
    uint8_t no = open_tagged();
    if (no == 0 || no == SEMIVRAKH_NO_ROOM) differ("a tagged file damaged at byte %zu is answered with %d", place, no);
    times_damaged[piece]++;
    if (no == SEMIVRAKH_WRONG_TAG) times_told_by_tag[piece]++;
    file[place] = right;
}

/* A bit of a key turned: only the key that the file is under matters. */
static void open_under_other_key(size_t place, bool is_own) {
    uint8_t right = keys[place];
    turn_a_bit(keys + place);
    plan_number(is_own ? SEMIVRAKH_WRONG_TAG : 0);
    open_tagged();
    keys[place] = right;
}

static void open_under_other_keys(void) {
    size_t own = cipher()->keys_at + cipher()->key_bytes * parts.key_number, end = own + cipher()->key_bytes;
    for (size_t place = own; place < end; place++, times_other_key++) open_under_other_key(place, true);
    for (int times = 0; times < 4; times++) {
        size_t place = random_below(KEYS_BYTES);
        open_under_other_key(place, place >= own && place < end);
    }
}

/* Another byte that is as good as the right one for everything but the tag. */
static void open_with_other_byte(size_t place, size_t other) {
    uint8_t right = file[place];
    file[place] = (uint8_t)other;
    plan_number(SEMIVRAKH_WRONG_TAG);
    open_tagged();
    file[place] = right;
}

/* Another letter of the name, the number of another key that is the same key, and another start of a loop. */
static void open_with_other_words(void) {
    size_t letter = piece_end(NAME_COUNT), number = piece_end(KEY_COUNT), start = piece_end(LOOP_COUNT) + 3;
    open_with_other_byte(letter, file[letter] == 'A' ? 'B' : 'A');
    open_with_other_byte(number, (file[number] + random_between(1, KEYS - 1)) % KEYS);
    if (parts.loops[1] > 1) open_with_other_byte(start, (parts.loops[0] + 1) % parts.loops[1]);
}

static void put_one_key_in_each_row(void) {
    uint8_t *rows = keys + cipher()->keys_at;
    for (size_t row = 1; row < KEYS; row++) memcpy(rows + row * cipher()->key_bytes, rows, cipher()->key_bytes);
}

/* A tagged file and its key, with a bit of each byte turned, or of the file with every bit. */
static void damage_tagged_pack(bool every_bit) {
    choose_small_parts();
    choose_key(MODEL_TRIAD);
    write_file();
    plan_number(0);
    read_file();
    for (size_t place = 0; place < file_length; place++) {
        for (unsigned bit = 0; every_bit && bit < 8; bit++) open_damaged_at(place, bit);
        if (!every_bit) open_damaged_at(place, random_below(8));
    }
    open_under_other_keys();
    put_one_key_in_each_row();
    write_file();
    open_with_other_words();
}

/* The section of a tag cut before its count and at a place of the tag, and with another count. */
static void spoil_tag_section(void) {
    choose_small_parts();
    choose_key(MODEL_TRIAD);
    write_file();
    cut_in(TAG_COUNT);
    read_front();
    cut_in(TAG);
    read_front();
    spoil_tag_count();
    write_file();
    plan_number(SEMIVRAKH_CUT_IN_TAG);
    read_file();
    look_at_cut();
}

void damaged_tagged_packs(void) {
    for (int packs = 0; packs < 4; packs++) damage_tagged_pack(packs == 0);
    for (int packs = 0; packs < 10; packs++) spoil_tag_section();
}

/* Asks for the loops of what was sealed, in too little room and in enough. */
static void read_loops_again(struct run sealed) {
    if (sealed.count > 0) {
        plan_number(SEMIVRAKH_NO_ROOM);
        compare_pack_loops(lent_file(), room(shorter_than(sealed.count)));
    }
    plan_number(0);
    compare_pack_loops(lent_file(), room(enough(sealed.count)));
    if (*(const size_t *)after(2) != sealed.count || memcmp(after(1), sealed.content, 4 * sealed.count) != 0) {
        differ("a sealed pack gives back other loops");
    }
}

/* Opens what was sealed, and looks whether the parts come back. */
static void read_again(const struct sealing *sealing, const int16_t *samples) {
    file_length = *(const size_t *)after(SEALED_LENGTH);
    memcpy(file, after(SEALED_OUTPUT), file_length);
    plan_number(0);
    open_file(sealing->keys, enough(sealing->samples.count), 7);
    if (memcmp(sound, samples, 2 * sealing->samples.count) != 0) differ("a sealed sound opens as another");
    if (opened[SEMIVRAKH_OPENED_SAMPLES] != sealing->samples.count
        || opened[SEMIVRAKH_OPENED_LOOPS] != sealing->loops.count / 2
        || opened[SEMIVRAKH_OPENED_KEY] != sealing->key_number || opened_key_count() != sealing->cipher
        || opened[SEMIVRAKH_OPENED_NAME_LENGTH] != sealing->name.count) {
        differ("a sealed pack opens with other counts");
    }
    if (memcmp(file + opened[SEMIVRAKH_OPENED_NAME_AT], parts.name, parts.name_length) != 0
        || memcmp(file + opened[SEMIVRAKH_OPENED_VALUE_AT], parts.value, cipher()->value_bytes) != 0) {
        differ("a sealed pack has its name or value elsewhere");
    }
    survey_file(0, enough_or_not(7));
    read_loops_again(sealing->loops);
}

static size_t sealed_length(void) {
    return piece_end(PIECES - 1);
}

/* Words at the edges of their range among random ones, and none of -32,768. */
static void choose_sound(void) {
    static const int16_t edges[] = {-32767, -32766, -32640, -257, -256, -2, -1, 0, 1, 127, 128, 255, 256, 32766, 32767};
    memcpy(sound, noise(2 * parts.samples), 2 * parts.samples);
    for (size_t i = 0; i < parts.samples; i++) {
        if (sound[i] == LOWEST_SAMPLE || (i < SMALL_MOST && random_once_in(2))) {
            sound[i] = edges[random_below(sizeof edges / sizeof *edges)];
        }
    }
}

/* A place of the sound, which has at least one: often its first or its last. */
static size_t some_place(void) {
    if (random_once_in(4)) return 0;
    return random_once_in(3) ? parts.samples - 1 : random_below((uint32_t)parts.samples);
}

static void put_lowest_samples(void) {
    sound[some_place()] = LOWEST_SAMPLE;
    if (random_once_in(4)) sound[some_place()] = LOWEST_SAMPLE;
}

/* Where the first sample of -32,768 stood. */
static void count_refused_sound(void) {
    size_t place = 0;
    while (place < parts.samples && sound[place] != LOWEST_SAMPLE) place++;
    if (place == parts.samples) differ("a sound is refused for a sample that it has not");
    times_refused_at[stand_of(place, parts.samples)]++;
}

static uint8_t seal(const struct sealing *sealing) {
    uint8_t no = compare_pack_seal(sealing);
    if (no == 0) times_sealed[model_cipher_of(sealing->cipher)]++;
    count_refused_key(no);
    return no;
}

/* Seals the sound with the parts, and with the faults of the set that are not in these. */
static void seal_sound(faults set) {
    static int16_t samples[SAMPLES_ROOM]; /* the sound once more, as opening goes over it */
    memcpy(samples, sound, sizeof samples);
    struct sealing sealing = {
        .name = run_of(parts.name, parts.name_length),
        .keys = keys_but_for(set),
        .cipher = parts.key_count,
        .key_number = parts.key_number,
        .value = has(set, 2) ? room(wrong_value_length()) : run_of(parts.value, cipher()->value_bytes),
        .samples = run_of(samples, parts.samples),
        .loops = run_of(parts.loops, parts.loop_numbers),
        .output = room(enough_but_for(set, sealed_length())),
    };
    plan_first(PACK_SEAL, set);
    uint8_t no = seal(&sealing);
    if (no == SEMIVRAKH_LOWEST_SAMPLE) count_refused_sound();
    if (no == 0) read_again(&sealing, samples);
}

/* The faults of the set that are in the parts. */
static void spoil_parts(faults set) {
    if (has(set, 11)) choose_name(random_once_in(2) ? 33 : random_between(34, 255));
    if (has(set, 12)) spoil_name();
    if (has(set, 13)) spoil_key_count();
    if (has(set, 14)) parts.key_number = (uint8_t)(random_once_in(2) ? 4 : random_between(5, 255));
    if (has(set, 15)) parts.samples = SEMIVRAKH_SAMPLES_MOST + random_between(1, EXTRA_MOST);
    size_t many = random_once_in(2) ? 18 : random_between(19, 2 * LOOPS_ROOM);
    if (has(set, 16)) choose_loops(many, (uint32_t)parts.samples);
    if (has(set, 17)) spoil_loop((uint32_t)parts.samples);
    if (has(set, 16) && random_once_in(2)) parts.loop_numbers = 2 * random_below(9) + 1;
}

static void seal_with(faults set) {
    choose_small_parts();
    spoil_parts(set);
    choose_sound();
    if (has(set, SEMIVRAKH_LOWEST_SAMPLE)) put_lowest_samples();
    seal_sound(set);
}

void sealing_packs(void) {
    with_each_fault_set(PACK_SEAL, 0, seal_with);
}

/* The parts of a pack under this cipher, refused for another key count, and for an initial value of another length. */
static void refuse_key_of(unsigned which) {
    choose_small_parts();
    choose_key(which);
    choose_sound();
    seal_sound(fault(SEMIVRAKH_BAD_VALUE));
    spoil_key_count();
    seal_sound(fault(SEMIVRAKH_BAD_KEY_COUNT) | (random_once_in(2) ? fault(SEMIVRAKH_BAD_VALUE) : 0));
    write_file();
    plan_number(SEMIVRAKH_BAD_KEY_COUNT);
    count_refused_key(open_file(keys_but_for(0), enough(parts.samples), enough(7)));
}

void refusing_keys_of_packs(void) {
    for (unsigned which = 0; which < MODEL_CIPHERS; which++) {
        for (int packs = 0; packs < 10; packs++) refuse_key_of(which);
    }
}

static void seal_shape(size_t name_length, size_t samples, size_t loops) {
    choose_parts(name_length, samples, loops);
    choose_sound();
    seal_sound(name_length > SEMIVRAKH_NAME_MOST ? fault(11) : 0);
}

void packs_of_all_shapes(void) {
    for (size_t name_length = 0; name_length <= SEMIVRAKH_NAME_MOST + 2; name_length++) {
        seal_shape(name_length, random_below(4), random_between(0, 8));
    }
    for (size_t loops = 0; loops <= SEMIVRAKH_LOOPS_MOST; loops++) {
        seal_shape(random_below(33), random_between(1, 40), loops);
    }
}

static void read_with_one_change(void) {
    size_t whole = file_length, place = random_below((uint32_t)file_length);
    uint8_t right = file[place];
    file[place] = (uint8_t)random_next();
    read_file();
    file[place] = right;
    file_length = place;
    read_front();
    file_length = whole;
}

/* One sample of -32,768 in so many, and further faults. */
static void seal_lowest_at(size_t place, size_t count, faults others) {
    choose_parts(random_between(1, 6), count, random_between(1, 3));
    spoil_parts(others);
    choose_sound();
    sound[place] = LOWEST_SAMPLE;
    seal_sound(others | fault(SEMIVRAKH_LOWEST_SAMPLE));
}

/* At each place, alone and with the fault that is told next. The fault that is told before comes too. */
void sealing_lowest_samples(void) {
    for (int sounds = 0; sounds < 4; sounds++) {
        size_t count = random_between(1, SMALL_MOST);
        for (size_t place = 0; place < count; place++) {
            seal_lowest_at(place, count, 0);
            seal_lowest_at(place, count, fault(SEMIVRAKH_MANY_LOOPS));
        }
        seal_lowest_at(random_below((uint32_t)count), count, fault(SEMIVRAKH_MANY_SAMPLES));
    }
}

/* A file whose plain words are known, as the keystream over them is. */
static uint8_t *enciphered_word(size_t place) {
    return file + piece_end(SAMPLE_COUNT) + 2 * place;
}

static unsigned word_at(size_t place) {
    const uint8_t *bytes = enciphered_word(place), *stream = keystream + 2 * place;
    return 256u * (bytes[0] ^ stream[0]) + (bytes[1] ^ stream[1]);
}

static void put_word(size_t place, unsigned word) {
    uint8_t *bytes = enciphered_word(place);
    const uint8_t *stream = keystream + 2 * place;
    bytes[0] = (uint8_t)(word / 256) ^ stream[0];
    bytes[1] = (uint8_t)(word % 256) ^ stream[1];
}

/* A file of the parts, with the sound in it. Its tag is put where it is opened. */
static void write_known_file(void) {
    write_file();
    make_keystream();
    for (size_t i = 0; i < parts.samples; i++) put_word(i, (uint16_t)sound[i]);
}

/* The samples of the file are its words, but for the lowest. */
static void open_known_file(void) {
    plan_number(0);
    open_file(keys_but_for(0), enough(parts.samples), enough(7));
    for (size_t i = 0; i < parts.samples; i++) {
        unsigned word = word_at(i), told = (uint16_t)sound[i];
        if (word == LOWEST_WORD) times_read_at[stand_of(i, parts.samples)]++;
        if (told != (word == LOWEST_WORD ? WORD_ABOVE : word)) differ("a plain word of %04X opens as %04X", word, told);
    }
}

/* Seals what was opened, with all that the file says of itself. */
static void seal_opened(void) {
    uint32_t loops[2 * SEMIVRAKH_LOOPS_MOST];
    plan_number(0);
    compare_pack_loops(lent_file(), room(2 * SEMIVRAKH_LOOPS_MOST));
    memcpy(loops, after(1), sizeof loops);
    struct sealing sealing = {
        .name = run_of(file + opened[SEMIVRAKH_OPENED_NAME_AT], opened[SEMIVRAKH_OPENED_NAME_LENGTH]),
        .keys = keys_but_for(0),
        .cipher = opened_key_count(),
        .key_number = (uint8_t)opened[SEMIVRAKH_OPENED_KEY],
        .value = run_of(file + opened[SEMIVRAKH_OPENED_VALUE_AT], opened_key_count() - 1),
        .samples = run_of(sound, opened[SEMIVRAKH_OPENED_SAMPLES]),
        .loops = run_of(loops, *(const size_t *)after(2)),
        .output = room(enough(file_length)),
    };
    plan_number(0);
    seal(&sealing);
}

static bool is_file(const void *bytes, size_t length) {
    return length == file_length && memcmp(bytes, file, length) == 0;
}

/* Makes each plain word of 80 00 the word above. Answers how many there were. */
static size_t raise_words(void) {
    size_t raised = 0;
    for (size_t i = 0; i < parts.samples; i++) {
        if (word_at(i) != LOWEST_WORD) continue;
        put_word(i, WORD_ABOVE);
        raised++;
    }
    return raised;
}

/* Opens the known file and seals it again. It comes back exactly if no plain word was 80 00, and otherwise with these
 * raised, the tag of the new words if there is one, and nothing else changed. Leaves the file as it came back. */
static void there_and_back(void) {
    put_tag();
    open_known_file();
    seal_opened();
    const void *back = after(SEALED_OUTPUT);
    size_t length = *(const size_t *)after(SEALED_LENGTH);
    bool same = is_file(back, length);
    size_t raised = raise_words();
    put_tag();
    if (same != (raised == 0)) {
        differ("a pack with %zu words of 80 00, opened and sealed again, is %s", raised, same ? "the same" : "another");
    }
    if (!is_file(back, length)) differ("a pack, opened and sealed again, has more changed than its words of 80 00");
    if (same) times_same++;
    else times_raised++;
}

/* A word of 80 00 at no place, at each, at all, and at some. What came back comes back as it is. */
static void open_lowest_words(void) {
    choose_parts(random_below(6), random_between(1, SMALL_MOST), random_below(4));
    choose_sound();
    write_known_file();
    there_and_back();
    for (size_t place = 0; place < parts.samples; place++) {
        unsigned other = word_at(place);
        put_word(place, LOWEST_WORD);
        there_and_back();
        put_word(place, other);
    }
    for (uint32_t apart = 1; apart <= 3; apart++) {
        for (size_t place = 0; place < parts.samples; place++) {
            if (random_once_in(apart)) put_word(place, LOWEST_WORD);
        }
        there_and_back();
        there_and_back();
    }
}

void opening_lowest_words(void) {
    for (int packs = 0; packs < 4; packs++) open_lowest_words();
}

/* A pack of as many words as it can hold, from `first` on, left and right in turn; or turned, with each on the other
 * side. */
static void open_words(unsigned which, unsigned first, bool turned) {
    choose_parts(0, SEMIVRAKH_SAMPLES_MOST, 0);
    choose_key(which);
    for (size_t i = 0; i < parts.samples; i++) sound[i] = (int16_t)(first + (turned ? i ^ 1 : i));
    write_known_file();
    put_tag();
    open_known_file();
}

void all_words_on_both_sides(void) {
    for (unsigned which = 0; which < MODEL_CIPHERS; which++) {
        for (unsigned first = 0; first <= UINT16_MAX; first += SEMIVRAKH_SAMPLES_MOST) {
            open_words(which, first, false);
            open_words(which, first, true);
        }
    }
}

/* Prints how often it was so at each place, and answers if it was at least so many times. */
static bool stands_often_enough(const char *what, const uint64_t times[STANDS], uint64_t each) {
    bool enough = true;
    printf("%-15s place", what);
    for (size_t i = 0; i < EIGHT; i++) printf(" %zu:%" PRIu64, i, times[i]);
    printf(" in the rest:%" PRIu64 "\n", times[IN_REST]);
    for (size_t i = 0; i < STANDS; i++) {
        if (times[i] >= each) continue;
        printf("FAILED: %s at place %zu only %" PRIu64 " times\n", what, i, times[i]);
        enough = false;
    }
    return enough;
}

bool lowest_often_enough(uint64_t each) {
    bool enough = stands_often_enough("-32768 refused", times_refused_at, each);
    enough &= stands_often_enough("80 00 opened", times_read_at, each);
    printf("sealed again    the same:%" PRIu64 " with 80 01 for 80 00:%" PRIu64 "\n", times_same, times_raised);
    if (times_same >= each && times_raised >= each) return enough;
    printf("FAILED: a pack was not opened and sealed again often enough\n");
    return false;
}

/* The pack of a large sound with one lowest word and with none, and the sound with one lowest sample. */
static void large_lowest(size_t count) {
    seal_lowest_at(random_below((uint32_t)count), count, 0);
    choose_sound();
    write_known_file();
    put_word(some_place(), LOWEST_WORD);
    there_and_back();
    there_and_back();
}

/* The cipher's chunks inside are no rule of the paper, so sizes around powers of two come too. */
void large_packs(void) {
    static const uint32_t sizes[] = {127, 128, 129, 255, 256, 257, 511, 512, 513, 1000};
    bool largest = random_once_in(8);
    size_t samples = sizes[random_below(sizeof sizes / sizeof *sizes)];
    if (largest) samples = SEMIVRAKH_SAMPLES_MOST - random_below(2);
    seal_shape(random_below(33), samples, random_below(9));
    read_with_one_change();
    for (int i = 0; !largest && i < 5; i++) read_with_one_change();
    large_lowest(samples);
}

/* Packs of any size, none of their pieces empty, cut in each piece. */
void cut_packs(void) {
    for (int i = 0; i < 8; i++) {
        size_t samples = random_between(1, i == 0 ? SEMIVRAKH_SAMPLES_MOST : 300);
        choose_parts(random_between(1, SEMIVRAKH_NAME_MOST), samples, random_between(1, SEMIVRAKH_LOOPS_MOST));
        write_file();
        for (size_t piece = 0; piece < pieces(); piece++) {
            cut_in(piece);
            read_front();
        }
    }
}

static bool each_cipher_often_enough(const char *what, const uint64_t times[MODEL_CIPHERS], uint64_t each) {
    bool enough = true;
    printf("%-15s", what);
    for (unsigned which = 0; which < MODEL_CIPHERS; which++) {
        printf(" %s:%" PRIu64, model_ciphers[which].name, times[which]);
    }
    printf("\n");
    for (unsigned which = 0; which < MODEL_CIPHERS; which++) {
        if (times[which] >= each) continue;
        printf("FAILED: %s %s only %" PRIu64 " times\n", what, model_ciphers[which].name, times[which]);
        enough = false;
    }
    return enough;
}

bool ciphers_often_enough(uint64_t each) {
    bool enough = each_cipher_often_enough("opened under", times_opened, each);
    enough &= each_cipher_often_enough("as frames under", times_framed, each);
    enough &= each_cipher_often_enough("35 as frames of", times_odd, each);
    enough &= each_cipher_often_enough("sealed under", times_sealed, each);
    enough &= each_cipher_often_enough("13 instead of", times_not_counted, each);
    enough &= each_cipher_often_enough("2 instead of", times_not_valued, each);
    return enough;
}

static bool each_piece_often_enough(const char *what, const uint64_t times[PIECES], uint64_t each) {
    bool enough = true;
    printf("%-15s", what);
    for (size_t i = 0; i < PIECES; i++) printf(" %s:%" PRIu64, piece_names[i], times[i]);
    printf("\n");
    for (size_t i = 0; i < PIECES; i++) {
        if (times[i] >= each) continue;
        printf("FAILED: a file was %s %s only %" PRIu64 " times\n", what, piece_names[i], times[i]);
        enough = false;
    }
    return enough;
}

bool cuts_often_enough(uint64_t each) {
    return each_piece_often_enough("cut in its", times_cut, each);
}

static bool often_enough(const char *what, uint64_t times, uint64_t each) {
    if (times >= each) return true;
    printf("FAILED: %s only %" PRIu64 " times\n", what, times);
    return false;
}

bool tags_often_enough(uint64_t each) {
    bool enough = each_piece_often_enough("damaged in its", times_damaged, each);
    printf("told by its tag");
    for (size_t i = 0; i < PIECES; i++) printf(" %s:%" PRIu64, piece_names[i], times_told_by_tag[i]);
    printf("\n%-15s in its key:%" PRIu64 " in its tag count:%" PRIu64 "\n", "another byte", times_other_key,
           times_other_tag_count);
    enough &= often_enough("a damaged initial value was told by the tag", times_told_by_tag[KEY], each);
    enough &= often_enough("a tagged file was opened under another key", times_other_key, each);
    enough &= often_enough("a tag had another count", times_other_tag_count, each);
    return enough;
}

static void choose_random_file(void) {
    file_length = random_below(100);
    memcpy(file, noise(file_length), file_length);
}

/* A front that can be read up to the loop count, or often with no loops to a tag's count, or with that to the tag: no
 * name, a key of any cipher, and no samples. */
static void put_readable_front(void) {
    const struct model_cipher *under = &model_ciphers[random_below(MODEL_CIPHERS)];
    uint8_t *behind_key = file + 3 + under->value_bytes;
    file[0] = 0;
    file[1] = under->key_count;
    file[2] &= 3;
    memset(behind_key, 0, random_once_in(2) ? 4 : 5);
    if (random_once_in(2)) behind_key[5] = (uint8_t)under->tag_bytes;
}

void random_packs(void) {
    for (int i = 0; i < 20; i++) {
        choose_random_file();
        read_file_in(random_below(50));
        choose_random_file();
        put_readable_front();
        read_file_in(random_below(50));
    }
}
