/*
 * Sends sounds over the link, on a line that loses, repeats, delays and reorders frames, and looks at what arrives: a
 * sound that fits, an empty one, and one too long for the receiver. In between a sender that was set back opens the
 * first session again, for another sound. Exit status 0 only if all goes as it should.
 */
#include "files.h"

static const char usage[] =
    "usage: link_demo [SEED] [FILE] [LOSS]\n"
    "  SEED  a number that decides what the line does, 1 if it is not given\n"
    "  FILE  the sound to send, its first 32,768 bytes; if it is not given, the program makes one\n"
    "  LOSS  how many of a hundred frames the line loses, 15 if it is not given; with 100 the program gives up";

/* A real pair has a key and a name of its own: ends made afresh under old ones would use their keystream again. */
static const uint8_t key[] = {'d', 'e', 'm', 'o', ' ', 'k', 'e', 'y', ' ', '0'};
static const uint8_t first_pair[SEMIVRAKH_PAIR_BYTES] = {'d', 'e', 's', 'k', '-', '1'};
static const uint8_t second_pair[SEMIVRAKH_PAIR_BYTES] = {'d', 'e', 's', 'k', '-', '2'};

enum {
    MADE_BYTES = 24601, /* no whole number of blocks: the last one is short */
    SMALL_ROOM = 4096,
    BAG_FRAMES = 32,
    LOSS_USUAL = 15,
    REPEATS = 10,   /* of a hundred frames */
    PATIENCE = 6,   /* ticks without news until the sender sends again */
    GIVE_UP = 1000, /* ticks without news until this program calls the line broken */
    REPORTS = 10,   /* lines of progress in a transfer */
    BAR = 30
};

/* The line */

struct frame {
    uint8_t bytes[SEMIVRAKH_FRAME_MOST];
    size_t length;
    unsigned long number; /* frames are numbered as they are put on the line */
    unsigned long due;    /* the tick from which it may come out */
};

/* One direction of the line: the frames on their way, in no order. */
struct bag {
    struct frame frames[BAG_FRAMES];
    size_t count;
    unsigned long newest_out; /* the highest number that came out */
};

struct line {
    struct bag to_receiver, to_sender;
    uint64_t random;
    unsigned loss; /* of a hundred frames */
    unsigned long tick, put, lost, repeated, late, refused;
};

static unsigned random_below(struct line *line, unsigned limit)
{
    line->random = line->random * 6364136223846793005u + 1442695040888963407u;
    return (unsigned)(line->random >> 33) % limit;
}

/* Most frames take a few ticks. One in sixteen takes so long that others overtake it; it may outlive its transfer. */
static unsigned long delay(struct line *line)
{
    return random_below(line, 16) == 0 ? 20 + random_below(line, 100) : random_below(line, 4);
}

static void put_frame(struct line *line, struct bag *bag, const uint8_t *bytes, size_t length)
{
    unsigned fate = random_below(line, 100);
    unsigned copies = fate < line->loss ? 0 : fate < line->loss + REPEATS ? 2 : 1;
    if (bag->count + copies > BAG_FRAMES) copies = 0;
    line->put++;
    line->lost += copies == 0;
    line->repeated += copies == 2;
    while (copies-- > 0) {
        struct frame *frame = &bag->frames[bag->count++];
        memcpy(frame->bytes, bytes, length);
        frame->length = length;
        frame->number = line->put;
        frame->due = line->tick + delay(line);
    }
}

/* Takes a frame that is due out of the bag, if there is one. The last of the bag gets its place, so order is lost. */
static bool take_frame(struct line *line, struct bag *bag, struct frame *frame)
{
    for (size_t i = 0; i < bag->count; i++) {
        if (bag->frames[i].due > line->tick) continue;
        *frame = bag->frames[i];
        bag->frames[i] = bag->frames[--bag->count];
        if (frame->number < bag->newest_out) line->late++;
        else bag->newest_out = frame->number;
        return true;
    }
    return false;
}

/* The two ends */

struct ends {
    uint8_t sender[SEMIVRAKH_SENDER_BYTES];
    uint8_t receiver[SEMIVRAKH_RECEIVER_BYTES];
    uint8_t *room; /* where the receiver puts a sound */
    size_t room_length;
};

static void must_be_ok(uint8_t no, const char *call)
{
    if (no != SEMIVRAKH_OK) refused(no, "%s", call);
}

/* A receiver has one room for all of its transfers, from its making on. */
static struct ends make_ends(const uint8_t *pair_name, uint8_t *room, size_t room_length)
{
    struct ends ends = {.room = room, .room_length = room_length};
    must_be_ok(semivrakh_sender_make(ends.sender, sizeof ends.sender, key, sizeof key, pair_name,
                                     SEMIVRAKH_PAIR_BYTES), "making a sender");
    must_be_ok(semivrakh_receiver_make(ends.receiver, sizeof ends.receiver, key, sizeof key, pair_name,
                                       SEMIVRAKH_PAIR_BYTES), "making a receiver");
    return ends;
}

/* One of the numbers SEMIVRAKH_SENDER_.. */
static size_t sender_says(const struct ends *ends, int which)
{
    size_t numbers[SEMIVRAKH_SENDER_NUMBERS];
    must_be_ok(semivrakh_sender_status(ends->sender, sizeof ends->sender, numbers, SEMIVRAKH_SENDER_NUMBERS),
               "asking the sender");
    return numbers[which];
}

/* One of the numbers SEMIVRAKH_RECEIVER_.. */
static size_t receiver_says(const struct ends *ends, int which)
{
    size_t numbers[SEMIVRAKH_RECEIVER_NUMBERS];
    must_be_ok(semivrakh_receiver_status(ends->receiver, sizeof ends->receiver, numbers, SEMIVRAKH_RECEIVER_NUMBERS),
               "asking the receiver");
    return numbers[which];
}

static size_t blocks_held(const struct ends *ends)
{
    return receiver_says(ends, SEMIVRAKH_RECEIVER_HELD);
}

static bool is_under_way(const struct ends *ends)
{
    size_t phase = sender_says(ends, SEMIVRAKH_SENDER_PHASE);
    return phase == SEMIVRAKH_OPENING || phase == SEMIVRAKH_SENDING;
}

static void sender_sends(struct ends *ends, struct line *line, const uint8_t *sound, size_t length)
{
    uint8_t frame[SEMIVRAKH_FRAME_MOST];
    size_t frame_length;
    must_be_ok(semivrakh_sender_send(ends->sender, sizeof ends->sender, sound, length, frame, sizeof frame,
                                     &frame_length), "sending");
    put_frame(line, &line->to_receiver, frame, frame_length);
}

static uint8_t hear(struct ends *ends, const uint8_t *frame, size_t frame_length,
                    uint8_t answer[SEMIVRAKH_ANSWER_MOST], size_t *answer_length)
{
    return semivrakh_receiver_hear(ends->receiver, sizeof ends->receiver, frame, frame_length, ends->room,
                                   ends->room_length, answer, SEMIVRAKH_ANSWER_MOST, answer_length);
}

/* A frame that comes after its transfer is refused with 25. A line that alters no frame leads to no other number. */
static void receiver_hears(struct ends *ends, struct line *line)
{
    struct frame frame;
    if (!take_frame(line, &line->to_receiver, &frame)) return;
    uint8_t answer[SEMIVRAKH_ANSWER_MOST];
    size_t answer_length;
    uint8_t no = hear(ends, frame.bytes, frame.length, answer, &answer_length);
    if (no == SEMIVRAKH_OTHER_SESSION) {
        line->refused++;
        return;
    }
    must_be_ok(no, "the receiver's hearing");
    put_frame(line, &line->to_sender, answer, answer_length);
}

/* Answers if the sender got to know anything new. An answer that comes after its transfer is refused with 22 or 25. */
static bool sender_hears(struct ends *ends, struct line *line)
{
    struct frame frame;
    if (!take_frame(line, &line->to_sender, &frame)) return false;
    size_t phase = sender_says(ends, SEMIVRAKH_SENDER_PHASE);
    size_t known = sender_says(ends, SEMIVRAKH_SENDER_KNOWN);
    uint8_t no = semivrakh_sender_hear(ends->sender, sizeof ends->sender, frame.bytes, frame.length);
    if (no == SEMIVRAKH_NO_TRANSFER || no == SEMIVRAKH_OTHER_SESSION) line->refused++;
    else must_be_ok(no, "the sender's hearing");
    return sender_says(ends, SEMIVRAKH_SENDER_PHASE) != phase || sender_says(ends, SEMIVRAKH_SENDER_KNOWN) != known;
}

/* A transfer */

/* Shows how much is held, if it is a tenth more than was shown; answers how many tenths are shown. */
static size_t show_progress(const struct ends *ends, const struct line *line, size_t shown)
{
    /* an empty sound has nothing to show, and while opening the receiver may still speak of the transfer before */
    size_t held = blocks_held(ends), blocks = sender_says(ends, SEMIVRAKH_SENDER_BLOCKS);
    if (blocks == 0 || sender_says(ends, SEMIVRAKH_SENDER_PHASE) == SEMIVRAKH_OPENING) return shown;
    if (held * REPORTS / blocks == shown) return shown;
    char bar[BAR + 1] = "";
    for (size_t i = 0; i < BAR; i++) bar[i] = i < held * BAR / blocks ? '#' : '.';
    printf("[%s] block %3zu of %zu, %lu lost, %lu repeated, %lu late\n", bar, held, blocks, line->lost, line->repeated,
           line->late);
    return held * REPORTS / blocks;
}

/* On a broken line a transfer has no end of its own, so the program sets one. */
_Noreturn static void give_up(const struct ends *ends)
{
    fprintf(stderr, "given up after %d ticks without news, with %zu of %zu blocks known to be held\n", GIVE_UP,
            sender_says(ends, SEMIVRAKH_SENDER_KNOWN), sender_says(ends, SEMIVRAKH_SENDER_BLOCKS));
    fputs("  look at the line, and begin the sound again\n", stderr);
    exit(1);
}

/* Runs a transfer until the sender knows its end, and answers the phase it is then in. */
static size_t transfer(struct ends *ends, struct line *line, const uint8_t *sound, size_t length)
{
    size_t shown = 0;
    unsigned quiet = 0;
    must_be_ok(semivrakh_sender_begin(ends->sender, sizeof ends->sender, sound, length), "beginning");
    while (is_under_way(ends)) {
        if (quiet == GIVE_UP) give_up(ends);
        if (quiet % PATIENCE == 0) sender_sends(ends, line, sound, length);
        receiver_hears(ends, line);
        quiet = sender_hears(ends, line) ? 0 : quiet + 1;
        line->tick++;
        shown = show_progress(ends, line, shown);
    }
    return sender_says(ends, SEMIVRAKH_SENDER_PHASE);
}

/* Lets all frames come out that are still on the line. */
static void run_empty(struct ends *ends, struct line *line)
{
    for (; line->to_receiver.count + line->to_sender.count > 0; line->tick++) {
        receiver_hears(ends, line);
        sender_hears(ends, line);
    }
}

/* A sender that is set back, as from a copy on a disk, begins its next sound under a session that was used before. The
 * receiver tells by the length that this opening repeats none that it has heard. It is well that no block follows: that
 * one would be under the first sound's keystream. Answers what the receiver refuses with. */
static uint8_t open_again(struct ends *ends, const uint8_t *set_back, const uint8_t *sound, size_t length)
{
    uint8_t sender[SEMIVRAKH_SENDER_BYTES], frame[SEMIVRAKH_FRAME_MOST], answer[SEMIVRAKH_ANSWER_MOST];
    size_t frame_length, answer_length;
    memcpy(sender, set_back, sizeof sender);
    must_be_ok(semivrakh_sender_begin(sender, sizeof sender, sound, length), "beginning again");
    must_be_ok(semivrakh_sender_send(sender, sizeof sender, sound, length, frame, sizeof frame, &frame_length),
               "sending again");
    return hear(ends, frame, frame_length, answer, &answer_length);
}

/* What arrived */

/* CRC-32, as in gzip. */
static uint32_t checksum(const uint8_t *bytes, size_t length)
{
    uint32_t sum = UINT32_MAX;
    for (size_t i = 0; i < length; i++) {
        sum ^= bytes[i];
        for (int bit = 0; bit < 8; bit++) sum = sum >> 1 ^ (sum % 2 == 1 ? 0xEDB88320 : 0);
    }
    return ~sum;
}

static const char *end_words(size_t phase)
{
    return phase == SEMIVRAKH_DONE ? "done" : "refused as too long";
}

/* A tone that falls, a byte a sample. */
static void make_sound(uint8_t *sound, size_t length)
{
    for (size_t i = 0; i < length; i++) sound[i] = (uint8_t)(i * 4096 / (i / 16 + 256));
}

/* As much of a file as the link takes. */
static size_t read_sound(const char *path, uint8_t sound[SEMIVRAKH_SOUND_MOST])
{
    struct file file = read_file(path);
    if (file.length > SEMIVRAKH_SOUND_MOST)
        fprintf(stderr, "%s has %zu bytes, and the link takes %d: the rest is left out\n", path, file.length,
                SEMIVRAKH_SOUND_MOST);
    size_t length = file.length < SEMIVRAKH_SOUND_MOST ? file.length : SEMIVRAKH_SOUND_MOST;
    if (length > 0) memcpy(sound, file.bytes, length);
    free(file.bytes);
    return length;
}

int main(int words, char **word)
{
    if (words > 4) stop("%s", usage);
    setvbuf(stdout, NULL, _IOLBF, 0); /* progress is seen as it is made, through a pipe too */
    static struct line line;
    line.random = words > 1 ? number_of(word[1], "SEED", 0, UINT32_MAX) : 1;
    line.loss = words > 3 ? number_of(word[3], "LOSS", 0, 100) : LOSS_USUAL;
    static uint8_t sound[SEMIVRAKH_SOUND_MOST], room[SEMIVRAKH_SOUND_MOST];
    size_t length = MADE_BYTES;
    if (words > 2) length = read_sound(word[2], sound);
    else make_sound(sound, length);
    for (size_t i = 0; i < length; i++) room[i] = (uint8_t)~sound[i]; /* no byte is right before it has arrived */
    struct ends ends = make_ends(first_pair, room, sizeof room);
    uint8_t copy[SEMIVRAKH_SENDER_BYTES];
    memcpy(copy, ends.sender, sizeof copy);

    printf("a sound of %zu bytes, checksum %08x\n", length, checksum(sound, length));
    size_t first = transfer(&ends, &line, sound, length);
    size_t arrived = receiver_says(&ends, SEMIVRAKH_RECEIVER_LENGTH);
    bool whole = receiver_says(&ends, SEMIVRAKH_RECEIVER_WHOLE) == 1;
    bool same = whole && arrived == length && memcmp(sound, room, length) == 0;
    printf("%s, with %zu blocks held, after %lu ticks and %lu frames, answers among them\n", end_words(first),
           blocks_held(&ends), line.tick, line.put);
    printf("arrived: %zu bytes, checksum %08x, %s\n", arrived, checksum(room, arrived),
           same ? "the same byte for byte" : "NOT THE SAME");

    size_t another = length > 0 ? length - 1 : 1;
    uint8_t no = open_again(&ends, copy, sound, another);
    printf("a sender set back opens the session again, for %zu bytes: refused %d, %s\n", another, no,
           semivrakh_words(no));

    size_t second = transfer(&ends, &line, NULL, 0);
    printf("an empty sound: %s, with %zu blocks held\n", end_words(second), blocks_held(&ends));

    run_empty(&ends, &line);

    /* A smaller room belongs to a receiver of its own, and so to another pair of ends and another line. */
    static struct line other_line;
    other_line.random = line.random;
    other_line.loss = line.loss;
    static uint8_t small_room[SMALL_ROOM];
    static const uint8_t long_sound[SMALL_ROOM + 1];
    struct ends others = make_ends(second_pair, small_room, sizeof small_room);
    size_t third = transfer(&others, &other_line, long_sound, sizeof long_sound);
    printf("a sound of %zu bytes for a room of %zu: %s\n", sizeof long_sound, others.room_length, end_words(third));
    run_empty(&others, &other_line);

    bool kept = memcmp(sound, room, length) == 0;
    printf("%lu frames came after the end of their transfer and were refused; the first sound is %s\n",
           line.refused + other_line.refused, kept ? "still as it was" : "DAMAGED");

    bool ended = first == SEMIVRAKH_DONE && second == SEMIVRAKH_DONE && third == SEMIVRAKH_REFUSED_TOO_LONG;
    bool good = ended && same && kept && no == SEMIVRAKH_OTHER_LENGTH;
    puts(good ? "all is as it should be" : "NOT AS IT SHOULD BE");
    return good ? 0 : 1;
}
