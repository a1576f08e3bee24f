/*
 * Runs transfers between the library's two ends over a bad line, which loses, repeats, delays and reorders frames, also
 * across transfers, but alters and invents none. After every call it looks at what must hold at every moment:
 *
 *   - the bytes of the blocks that the receiver counts are the front of the sound begun under its session;
 *   - a call changes no byte of the buffer outside the block that it placed, and a refused call changes nothing at all;
 *   - the receiver says that it is whole exactly if it counts all blocks of a sound;
 *   - the sender is done only while the receiver holds the whole sound of that session, and then knows of all blocks;
 *   - the sender is refused only if the sound is longer than the receiver's buffer;
 *   - no delivered frame is refused as no frame, as impossible, or for a record out of rule.
 *
 * From random moments, with n blocks not known to be held, undisturbed rounds must end the transfer: n + 1 at most.
 *
 *   line (--short | --long) [--seed N] [--broken alter | record | buffer]
 *
 * It prints what it counted, and ends with 1 at the first fault, or if a kind of trouble never came. --broken does what
 * the line or the ends' keeper must not do, so that the run must fail: it is the test of this test.
 */
#include <inttypes.h>
#include <stdio.h>
#include <string.h>

#include "line_ends.h"
#include "options.h"
#include "random.h"

enum { BAG = 100 };

static const uint64_t SHORT_RUN = 1000, LONG_RUN = 20000; /* transfers, at least */

enum broken { NOTHING, ALTER, RECORD, BUFFER };
static enum broken broken;

struct line_frame {
    uint8_t bytes[FRAME];
    size_t length;
    uint64_t sent_as;   /* a number that grows with each frame of its direction */
    uint64_t delivered; /* how often */
};

/* All that is on the line one way; frames stay when they were delivered, and may come again. */
struct direction {
    struct line_frame frames[BAG];
    unsigned count;
    uint64_t sent, latest_delivered;
};

static struct direction to_receiver, to_sender;
static uint32_t losses_in_hundred;
static uint8_t older_sender[SENDER];

/* The line. */

static void put_on_line(struct direction *way, const uint8_t *bytes, size_t length) {
    uint64_t number = ++way->sent;
    if (random_below(100) < losses_in_hundred) {
        counted.lost++;
        return;
    }
    unsigned place = way->count < BAG ? way->count++ : random_below(BAG);
    struct line_frame *frame = &way->frames[place];
    memcpy(frame->bytes, bytes, length);
    frame->length = length;
    frame->sent_as = number;
    frame->delivered = 0;
}

static struct line_frame *latest_waiting(struct direction *way) {
    struct line_frame *latest = NULL;
    for (unsigned i = 0; i < way->count; i++) {
        struct line_frame *frame = &way->frames[i];
        if (frame->delivered == 0 && (latest == NULL || frame->sent_as > latest->sent_as)) latest = frame;
    }
    return latest;
}

static uint32_t session_of(const struct line_frame *frame) {
    uint32_t session = 0;
    for (int i = 1; i <= 4; i++) session = session << 8 | frame->bytes[i];
    return session;
}

/* Takes a frame off the line: more often than not the latest, and otherwise any that was ever put there. */
static const struct line_frame *take_off_line(struct direction *way) {
    struct line_frame *frame = latest_waiting(way);
    if (way->count == 0) return NULL;
    if (frame == NULL || random_once_in(3)) frame = &way->frames[random_below(way->count)];
    if (frame->delivered > 0) counted.repeated++;
    if (frame->delivered == 0 && frame->sent_as < way->sent) counted.delayed++;
    if (frame->delivered == 0 && frame->sent_as < way->latest_delivered) counted.reordered++;
    if (session_of(frame) != sender_says(SEMIVRAKH_SENDER_SESSION)) counted.across_transfers++;
    if (frame->sent_as > way->latest_delivered) way->latest_delivered = frame->sent_as;
    frame->delivered++;
    if (broken == ALTER && random_once_in(20)) frame->bytes[random_below((uint32_t)frame->length)] ^= 4;
    return frame;
}

/* What can happen. */

static void sender_sends(void) {
    uint8_t frame[FRAME] = {0};
    size_t length = sender_says(SEMIVRAKH_SENDER_LENGTH);
    if (!under_way()) {
        send_frame(frame, FRAME, length, SEMIVRAKH_NO_TRANSFER);
    } else if (random_once_in(20)) {
        send_frame(frame, random_below(9), length, SEMIVRAKH_NO_ROOM);
        counted.short_room++;
    } else if (length > 0 && random_once_in(20)) {
        send_frame(frame, FRAME, random_below((uint32_t)length), SEMIVRAKH_WRONG_SOUND);
        counted.wrong_sound++;
    } else {
        put_on_line(&to_receiver, frame, send_frame(frame, FRAME, length, 0));
    }
}

static void line_to_receiver(void) {
    const struct line_frame *frame = take_off_line(&to_receiver);
    uint8_t answer[ANSWER] = {0};
    size_t answer_length;
    if (frame == NULL) return;
    size_t room = random_once_in(20) ? random_below(ANSWER) : ANSWER;
    uint8_t no = receiver_hears(frame->bytes, frame->length, answer, room, &answer_length);
    if (no == 0) put_on_line(&to_sender, answer, answer_length);
    if (no == SEMIVRAKH_NO_ROOM) counted.short_room++;
    if (no == SEMIVRAKH_OTHER_SESSION) counted.late_for_receiver++;
}

static void line_to_sender(void) {
    const struct line_frame *frame = take_off_line(&to_sender);
    if (frame != NULL && sender_hears(frame->bytes, frame->length) != 0) counted.late_for_sender++;
}

static void something_happens(void) {
    if (broken == BUFFER && random_once_in(50)) buffer[random_below((uint32_t)buffer_length + 1)] ^= 1;
    switch (random_below(3)) {
        case 0: sender_sends(); break;
        case 1: line_to_receiver(); break;
        default: line_to_sender(); break;
    }
}

/* A probe costs as many rounds as blocks are left, so long sounds get few. */
static bool time_to_probe(void) {
    uint32_t left = (uint32_t)blocks_left();
    return under_way() && random_once_in(8 + left * left / 4);
}

static size_t choose_length(void) {
    static const size_t edges[] = {0, 1, 63, 64, 65, 128, 129};
    if (random_once_in(300)) return random_once_in(3) ? SOUND - random_below(2) : random_below(SOUND);
    if (random_once_in(20)) return random_below(2000);
    if (random_once_in(3)) return edges[random_below(sizeof edges / sizeof *edges)];
    return random_below(400);
}

static void set_record_back(void) {
    uint8_t now[SENDER];
    memcpy(now, sender, SENDER);
    if (random_once_in(10)) memcpy(sender, older_sender, SENDER);
    memcpy(older_sender, now, SENDER);
}

static void one_transfer(void) {
    if (broken == RECORD) set_record_back();
    const struct sound *sound = new_sound(choose_length());
    begin(sound);
    if (sound->session == 0) return;
    counted.transfers++;
    losses_in_hundred = random_below(50);
    bool abandon = random_once_in(6), finish = random_once_in(4);
    uint32_t patience = random_below(60);
    while (under_way() && (patience > 0 || !(abandon || finish))) {
        something_happens();
        if (counted.moments % 16 == 0) stray_opening();
        if (time_to_probe()) probe();
        if (patience > 0) patience--;
    }
    if (under_way() && !abandon) finish_undisturbed();
    if (phase() == SEMIVRAKH_DONE) counted.done++;
    else if (phase() == SEMIVRAKH_REFUSED_TOO_LONG) counted.too_long++;
    else counted.abandoned++;
    for (uint32_t more = random_below(4); more > 0; more--) something_happens();
}

/* All transfers of one pair of ends. */
static void one_pair(void) {
    if (counted.pairs % 8 == 0) make_old_pair();
    else make_pair();
    to_receiver = to_sender = (struct direction){0};
    memcpy(older_sender, sender, SENDER);
    check_moment();
    while (sound_count < SOUNDS) one_transfer();
    forget_sounds();
}

/* The paper's counts of rounds, with nothing lost. */
static void worked_example(size_t length, size_t rounds_due) {
    make_pair();
    buffer_length = SOUND;
    begin(new_sound(length));
    counted.transfers++;
    size_t rounds = finish_undisturbed();
    if (rounds != rounds_due) fail("a sound of %zu bytes takes %zu rounds", length, rounds);
    counted.done++;
    forget_sounds();
}

static bool print_count(const char *what, uint64_t count) {
    printf("  %-45s %" PRIu64 "\n", what, count);
    if (count == 0) printf("FAILED: that never happened\n");
    return count > 0;
}

static bool print_counts(void) {
    bool all = print_count("pairs of ends", counted.pairs);
    all &= print_count("transfers begun", counted.transfers);
    all &= print_count("  done", counted.done);
    all &= print_count("  refused as too long", counted.too_long);
    all &= print_count("  unfinished, another begun over them", counted.abandoned);
    all &= print_count("moments checked", counted.moments);
    all &= print_count("moments from which rounds went undisturbed", counted.probes);
    all &= print_count("undisturbed rounds", counted.undisturbed_rounds);
    all &= print_count("frames lost", counted.lost);
    all &= print_count("frames repeated", counted.repeated);
    all &= print_count("frames delayed", counted.delayed);
    all &= print_count("frames out of order", counted.reordered);
    all &= print_count("frames of another transfer", counted.across_transfers);
    all &= print_count("frames too late for the sender", counted.late_for_sender);
    all &= print_count("frames too late for the receiver", counted.late_for_receiver);
    all &= print_count("calls refused for want of room", counted.short_room);
    all &= print_count("sendings of a sound of another length", counted.wrong_sound);
    all &= print_count("beginnings with no session left", counted.no_session_left);
    all &= print_count("openings of no sender, with another length", counted.strays);
    return all;
}

static int usage(void) {
    fprintf(stderr, "usage: line (--short | --long) [--seed N] [--broken alter | record | buffer]\n");
    return 2;
}

static bool read_broken(const char *word) {
    static const char *const words[] = {[NOTHING] = "", [ALTER] = "alter", [RECORD] = "record", [BUFFER] = "buffer"};
    for (broken = NOTHING; broken <= BUFFER; broken++) {
        if (strcmp(word, words[broken]) == 0) return true;
    }
    return false;
}

int main(int count, char **words) {
    struct options options;
    if (!read_options(&options, count, words) || !read_broken(options.broken)) return usage();
    uint64_t transfers = options.is_long ? LONG_RUN : SHORT_RUN;
    printf("line %s, seed %" PRIu64 "\n", options.size, options.seed);
    random_start(options.seed);
    worked_example(65, 3);
    worked_example(0, 1);
    while (counted.transfers < transfers) one_pair();
    if (!print_counts()) return 1;
    printf("line: %" PRIu64 " transfers, %" PRIu64 " moments, no fault\n", counted.transfers, counted.moments);
    return 0;
}
