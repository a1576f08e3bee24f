/*
 * Compares the library with the model on generated input.
 *
 *   compare (--short | --long) [--seed N] [--broken WHAT]
 *
 * It prints the seed, a table of the answers by call and number, how often packs were under each cipher, how often a
 * file was cut where, where tagged files were damaged, where lowest samples and words stood, and the count of
 * comparisons. It ends with 1 at the first difference, or if one of these didn't come often enough. --broken spoils the
 * model, so that the comparison must fail: it is the test of this test. The words for it stand in `breakings`.
 */
#include <inttypes.h>
#include <stdio.h>
#include <string.h>

#include "families.h"
#include "lend.h"
#include "model.h"
#include "options.h"
#include "random.h"
#include "vectors.h"

struct size {
    uint64_t comparisons;        /* at least */
    uint64_t each_number;        /* over all calls, at least; and each cipher, cut, damage and place of a sample */
    uint64_t each_number_a_call; /* for a call that lists it, at least */
};

static const struct size short_run = {160000, 100, 1};
static const struct size long_run = {8000000, 100, 100};

static void (*const families[])(void) = {
    making_ciphers,      enciphering,       streams_in_pieces,    damaged_ciphers, random_cipher_input,
    sealing_packs,       opening_packs,     damaged_packs,        cut_packs,       random_packs,
    packs_of_all_shapes, large_packs,       making_ends,          beginning,       sending,
    sender_hearing,      receiver_hearing,  asking_ends,          damaged_sender,  damaged_receiver,
    random_link_input,   whole_transfers,   some_records_at_the_edges,
    sealing_lowest_samples,                 opening_lowest_words, packs_under_another_count,
    tagging_bytes,       damaged_tagged_packs, refusing_keys_of_packs,
};

enum { FAMILIES = sizeof families / sizeof *families };

static void break_tap_of(struct model_taps all[MODEL_REGISTERS]) {
    struct model_taps *taps = &all[random_below(MODEL_REGISTERS)];
    unsigned *each[] = {&taps->near, &taps->oldest, &taps->factor, &taps->other_factor, &taps->own};
    unsigned *tap = each[random_below(sizeof each / sizeof *each)];
    printf("broken on purpose: the model reads %u bits back where it should read %u\n", *tap - 1, *tap);
    (*tap)--;
}

static void break_tap(void) {
    break_tap_of(model_rules.taps);
}

static void break_triad(void) {
    break_tap_of(model_rules.triad_taps);
}

/* What a tag is of, or how much of it is compared. */
static void break_tag(void) {
    if (random_once_in(2)) {
        printf("broken on purpose: the model leaves the loops out of the associated data\n");
        model_rules.loops_tagged = false;
    } else {
        printf("broken on purpose: the model doesn't look at a tag's last byte\n");
        model_rules.tag_compared--;
    }
}

/* Two entries of the small box change places, so that it is a permutation still; or another byte goes through it. */
static void break_box(void) {
    if (random_once_in(2)) {
        uint8_t *entry = &model_rules.box[random_below(MODEL_BOX - 1)], other = entry[1];
        printf("broken on purpose: the model's box s4 has %d and %d the other way round\n", entry[0], other);
        entry[1] = entry[0];
        entry[0] = other;
    } else {
        unsigned *place = &model_rules.boxed[random_below(MODEL_BOXED)];
        printf("broken on purpose: the model takes b%u through the box where it should take b%u\n", *place - 1, *place);
        (*place)--;
    }
}

static void break_refusal(void) {
    uint8_t *number = &model_rules.number[random_below(MODEL_REASONS)];
    printf("broken on purpose: the model answers %d where it should answer %d\n", *number + 1, *number);
    (*number)++;
}

static void break_lack(void) {
    printf("broken on purpose: the model says that a cut file lacks a byte more than it does\n");
    model_rules.lacks_besides = 1;
}

static void break_lowest(void) {
    printf("broken on purpose: the model reads 80 00 as -32768\n");
    model_rules.lowest_opened = -32768;
}

static void break_sides(void) {
    printf("broken on purpose: the model has left and right the other way round\n");
    model_rules.left_first = false;
}

static void break_floats(void) {
    printf("broken on purpose: the model divides by 16384 where it should divide by 32768\n");
    model_rules.halvings--;
}

static void print_row(enum call call) {
    printf("%-16s 0:%" PRIu64, call_names[call], times_answered(call, 0));
    for (const uint8_t *number = listed_refusals[call]; *number != 0; number++) {
        printf(" %d:%" PRIu64, *number, times_answered(call, *number));
    }
    printf("\n");
}

static bool often_enough_at(enum call call, uint8_t number, const struct size *size) {
    if (times_answered(call, number) >= size->each_number_a_call) return true;
    printf("FAILED: %s answered %d only %" PRIu64 " times\n", call_names[call], number, times_answered(call, number));
    return false;
}

static bool rows_often_enough(const struct size *size) {
    bool enough = true;
    for (enum call call = 0; call < CALLS; call++) {
        print_row(call);
        enough &= often_enough_at(call, 0, size);
        for (const uint8_t *number = listed_refusals[call]; *number != 0; number++) {
            enough &= often_enough_at(call, *number, size);
        }
    }
    return enough;
}

static bool numbers_often_enough(const struct size *size) {
    bool enough = true;
    for (int reason = 0; reason < MODEL_REASONS; reason++) {
        uint8_t number = model_rules.number[reason];
        uint64_t times = 0;
        for (enum call call = 0; call < CALLS; call++) times += times_answered(call, number);
        if (times >= size->each_number) continue;
        printf("FAILED: %d was answered only %" PRIu64 " times\n", number, times);
        enough = false;
    }
    return enough;
}

/* What --broken can spoil, and whether it does so before the vectors are looked at: they have to find it then, and
 * otherwise the comparison. */
static const struct {
    const char *word;
    bool before_vectors;
    void (*spoil)(void);
} breakings[] = {
    {"vector", true, break_tap},
    {"tap", false, break_tap},
    {"box_vector", true, break_box},
    {"box", false, break_box},
    {"refusal", false, break_refusal},
    {"triad_vector", true, break_triad},
    {"triad", false, break_triad},
    {"tag", false, break_tag},
    {"lack", false, break_lack},
    {"lowest", false, break_lowest},
    {"sides", false, break_sides},
    {"floats", false, break_floats},
};

enum { BREAKINGS = sizeof breakings / sizeof *breakings };

static bool can_break(const char *word) {
    for (int i = 0; i < BREAKINGS; i++) {
        if (strcmp(breakings[i].word, word) == 0) return true;
    }
    return *word == 0;
}

static void break_if(const char *word, bool before_vectors) {
    for (int i = 0; i < BREAKINGS; i++) {
        if (strcmp(breakings[i].word, word) == 0 && breakings[i].before_vectors == before_vectors) breakings[i].spoil();
    }
}

static int usage(void) {
    fprintf(stderr, "usage: compare (--short | --long) [--seed N] [--broken WHAT], where WHAT is one of\n");
    for (int i = 0; i < BREAKINGS; i++) fprintf(stderr, "  %s\n", breakings[i].word);
    return 2;
}

int main(int count, char **words) {
    struct options options;
    if (!read_options(&options, count, words) || !can_break(options.broken)) return usage();
    const struct size *size = options.is_long ? &long_run : &short_run;
    printf("compare %s, seed %" PRIu64 "\n", options.size, options.seed);
    random_start(options.seed);
    fill_noise();
    break_if(options.broken, true);
    check_vectors();
    break_if(options.broken, false);

    all_records_at_the_edges();
    all_splits_of_tagged_bytes();
    all_words_on_both_sides();
    for (int family = 0; family < FAMILIES || comparisons_made() < size->comparisons; family++) {
        families[family % FAMILIES]();
    }
    bool enough = rows_often_enough(size);
    enough &= numbers_often_enough(size);
    enough &= ciphers_often_enough(size->each_number);
    enough &= cuts_often_enough(size->each_number);
    enough &= tags_often_enough(size->each_number);
    enough &= lowest_often_enough(size->each_number);
    if (!enough) return 1;
    printf("compare: %" PRIu64 " comparisons, no difference\n", comparisons_made());
    return 0;
}
