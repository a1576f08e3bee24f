/*
 * main ratios | main growth: prints one of the two tables, its fields parted by tabs, its first line the headings.
 * Every ratio is that of times: over 1 means that what is named first is slower.
 * main speed: prints how fast bytes are enciphered and tagged, which means something only where nothing is emulated.
 */
#include "checks.h"
#include "peers.h"
#include "timing.h"
#include "works.h"

#include <math.h>
#include <stdio.h>
#include <string.h>

static const double NO_AIM = 0;
static const double OWN_AIM = 1.00;
static const double PACK_AIM = 1.25;

enum { PAPER_BYTES = 65536 }; /* the longest message in the speeds of TRIAD's paper, at 3.06 cycles a byte there */

static const char ENCIPHER[] = "encipher 32,768 bytes";
static const char MAKE_AND_ENCIPHER[] = "make a cipher and encipher 32,768 bytes";
static const char TAG[] = "tag 32,768 bytes";
static const char ENCIPHER_AND_TAG[] = "make, encipher and tag 32,768 bytes";
static const char OPEN[] = "open a pack of 16,384 samples";
static const char OPEN_STEREO[] = "open a pack as 8,192 stereo frames";
static const char SEAL[] = "seal a pack of 16,384 samples";

/* An aim is judged by the figure as it is printed, with the aim's two places. */
static const char *verdict(double ratio, double aim)
{
    return round(ratio * 100) <= round(aim * 100) ? "met" : "short";
}

static int places(double ratio) { return ratio < 0.1 ? 3 : 2; }

/* The cipher is the library's: what others are held against is its too. */
static void row(const struct cipher *cipher, const char *first, const char *second, struct comparison c, double aim)
{
    printf("%s\t%s\t%s\t%.*f\t%.2f\t", cipher->name, first, second, places(c.ratio), c.ratio, c.spread);
    if (aim == NO_AIM)
        printf("\t\n");
    else
        printf("at most %.2f\t%s\n", aim, verdict(c.ratio, aim));
    fflush(stdout);
}

static void engine_rows(const struct cipher *cipher)
{
    struct stream bare = stream_of(cipher, BARE_BYTES);
    for (size_t at = 0; at < cipher->engine_count; at++) {
        const struct engine *engine = &cipher->engines[at];
        bare.engine = engine;
        row(cipher, ENCIPHER, engine->name, compare(library_encipher(&bare), own_encipher_work(&bare)),
            engine->is_of_the_same_design ? OWN_AIM : NO_AIM);
    }
}

/* A work with a tag against the own C's, whose engine stands at `engine`: each that has tags, in turn. */
static void tag_engine_rows(const struct cipher *cipher, const char *name, struct work work, struct work own,
                            const struct engine **engine)
{
    for (*engine = cipher->engines; *engine < cipher->engines + cipher->engine_count; ++*engine)
        if ((*engine)->tag != NULL)
            row(cipher, name, (*engine)->name, compare(work, own), OWN_AIM);
}

static void pack_rows(const struct cipher *cipher, const char *name, struct work work)
{
    struct stream bare = stream_of(cipher, BARE_BYTES);
    row(cipher, name, ENCIPHER, compare(work, library_encipher(&bare)), PACK_AIM);
    row(cipher, name, MAKE_AND_ENCIPHER, compare(work, library_make_and_encipher(&bare)), PACK_AIM);
}

/* With a tag, a pack is more than enciphering, and no aim says how much more: opening goes over the samples twice, and
 * so does sealing, which tags what it wrote. */
static void tagged_pack_rows(const struct cipher *cipher, const char *name, struct work work)
{
    struct stream bare = stream_of(cipher, BARE_BYTES);
    row(cipher, name, ENCIPHER, compare(work, library_encipher(&bare)), NO_AIM);
    row(cipher, name, ENCIPHER_AND_TAG, compare(work, library_encipher_and_tag(&bare)), NO_AIM);
}

static void tag_rows(const struct cipher *cipher, struct pack *longest)
{
    struct stream bare = stream_of(cipher, BARE_BYTES), tagged = bare;
    tag_engine_rows(cipher, TAG, library_tag(&tagged), own_tag_work(&tagged), &tagged.engine);
    tag_engine_rows(cipher, OPEN, library_open(longest), own_open_work(longest), &longest->engine);
    tag_engine_rows(cipher, SEAL, library_seal(longest), own_seal_work(longest), &longest->engine);
    row(cipher, TAG, ENCIPHER, compare(library_tag(&tagged), library_encipher(&bare)), NO_AIM);
    tagged_pack_rows(cipher, OPEN, library_open(longest));
    tagged_pack_rows(cipher, SEAL, library_seal(longest));
}

static void cipher_rows(const struct cipher *cipher)
{
    struct pack *longest = pack_of(cipher, LARGEST_PACK_BYTES);
    struct stream bare = stream_of(cipher, BARE_BYTES), made = bare;
    engine_rows(cipher);
    if (cipher->tag != NULL) {
        tag_rows(cipher, longest);
    } else {
        pack_rows(cipher, OPEN, library_open(longest));
        pack_rows(cipher, SEAL, library_seal(longest));
    }
    row(cipher, OPEN_STEREO, OPEN, compare(library_open_stereo(longest), library_open(longest)), NO_AIM);
    row(cipher, "make a cipher", ENCIPHER, compare(library_make(&made), library_encipher(&bare)), NO_AIM);
}

/* The row of something that isn't a work of one cipher alone, against Trivium, which the link is under. */
static void row_against_trivium(const char *name, struct work work)
{
    struct stream bare = stream_of(&ciphers[TRIVIUM], BARE_BYTES);
    row(&ciphers[TRIVIUM], name, ENCIPHER, compare(work, library_encipher(&bare)), NO_AIM);
}

static void encipher_by_peer(void *with) { ((const struct peer *)with)->encipher(plain, sealed, BARE_BYTES); }

static void missing_row(const char *name, const char *cause)
{
    printf("\t%s\tnot measured: %s\t\t\t\t\n", name, cause);
}

static void peer_rows(const struct peer *peers, size_t count)
{
    for (const struct peer *peer = peers; peer < peers + count; peer++) {
        if (peer->missing != NULL) {
            missing_row(peer->name, peer->missing);
            continue;
        }
        check_peer(peer);
        row_against_trivium(peer->name, (struct work){ encipher_by_peer, (void *)peer });
    }
}

static void seal_by_peer(void *with)
{
    const struct tag_peer *peer = with;
    struct letter letter = { associated, ASSOCIATED_BYTES, plain, sealed, BARE_BYTES, { 0 } };
    peer->seal(peer->which, &letter);
}

/* Sealing with a tag against TRIAD's: the same bytes, with as much associated data, from key and nonce on. */
static void tag_peer_rows(const struct tag_peer *peers, size_t count)
{
    struct stream bare = stream_of(&ciphers[TRIAD], BARE_BYTES);
    for (const struct tag_peer *peer = peers; peer < peers + count; peer++) {
        const char *cause = peer->missing(peer->which);
        if (cause != NULL) {
            missing_row(peer->name, cause);
            continue;
        }
        check_tag_peer(peer);
        struct work seal = { seal_by_peer, (void *)peer };
        row(&ciphers[TRIAD], peer->name, ENCIPHER_AND_TAG, compare(seal, library_encipher_and_tag(&bare)), NO_AIM);
    }
}

static void print_ratios(void)
{
    printf("cipher\twhat\tagainst\tratio\tspread\taim\tverdict\n");
    for (size_t at = 0; at < CIPHERS; at++)
        cipher_rows(&ciphers[at]);
    row_against_trivium("link: 32,768 bytes, both ends", library_transfer());
    peer_rows(cryptopp_peers, cryptopp_peer_count);
    peer_rows(tomcrypt_peers, tomcrypt_peer_count);
    tag_peer_rows(sodium_peers, sodium_peer_count);
    tag_peer_rows(openssl_peers, openssl_peer_count);
}

static double larger(double left, double right) { return left > right ? left : right; }

/* Prints one figure of the growth table, the time per byte over that of the bare size, and answers its spread. */
static double growth(struct work work, size_t bytes, struct work at_bare)
{
    struct comparison c = compare(work, at_bare);
    printf("\t%.2f", c.ratio * BARE_BYTES / (double)bytes);
    fflush(stdout);
    return c.spread;
}

static double encipher_growth(const struct cipher *cipher, size_t bytes)
{
    struct stream stream = stream_of(cipher, bytes), bare = stream_of(cipher, BARE_BYTES);
    return growth(library_encipher(&stream), bytes, library_encipher(&bare));
}

static double pack_growth(const struct cipher *cipher, size_t bytes)
{
    if (bytes > LARGEST_PACK_BYTES) {
        printf("\t\t");
        return 0;
    }
    struct pack *pack = pack_of(cipher, bytes), *bare = pack_of(cipher, BARE_BYTES);
    double of_opening = growth(library_open(pack), bytes, library_open(bare));
    return larger(of_opening, growth(library_seal(pack), bytes, library_seal(bare)));
}

static double tag_growth(const struct cipher *cipher, size_t bytes)
{
    if (cipher->tag == NULL)
        return 0;
    struct stream stream = stream_of(cipher, bytes), bare = stream_of(cipher, BARE_BYTES);
    return growth(library_tag(&stream), bytes, library_tag(&bare));
}

static void print_growth(void)
{
    printf("bytes");
    for (size_t at = 0; at < CIPHERS; at++)
        printf("\t%s: encipher\topen\tseal%s", ciphers[at].name, ciphers[at].tag == NULL ? "" : "\ttag");
    printf("\tspread\n");
    for (size_t bytes = SMALLEST_BYTES; bytes <= LARGEST_BYTES; bytes *= 2) {
        double spread = 0; /* of a row: the largest of its figures' */
        printf("%zu", bytes);
        for (size_t at = 0; at < CIPHERS; at++) {
            spread = larger(spread, encipher_growth(&ciphers[at], bytes));
            spread = larger(spread, pack_growth(&ciphers[at], bytes));
            spread = larger(spread, tag_growth(&ciphers[at], bytes));
        }
        printf("\t%.2f\n", spread);
    }
}

static void speed(const char *what, const struct stream *stream, struct work work, double cycles)
{
    const double seconds = compare(work, work).seconds, bytes = (double)stream->bytes;
    printf("%s under %s in %.1f microseconds, %.0f million bytes a second, about %.2f cycles a byte.\n",
           what, stream->cipher->name, seconds * 1e6, bytes / seconds / 1e6, seconds * cycles / bytes);
}

static void print_speed(void)
{
    const double cycles = cycles_a_second();
    for (size_t at = 0; at < CIPHERS; at++) {
        struct stream bare = stream_of(&ciphers[at], BARE_BYTES);
        speed("32,768 bytes are enciphered", &bare, library_encipher(&bare), cycles);
    }
    struct stream both = stream_of(&ciphers[TRIAD], PAPER_BYTES);
    speed("65,536 bytes are enciphered and tagged", &both, library_encipher_and_tag(&both), cycles);
}

static const struct {
    const char *word;
    void (*print)(void);
} parts[] = { { "ratios", print_ratios }, { "growth", print_growth }, { "speed", print_speed } };

int main(int count, char **words)
{
    for (size_t part = 0; count == 2 && part < sizeof parts / sizeof *parts; part++) {
        if (strcmp(words[1], parts[part].word) != 0)
            continue;
        prepare();
        check_library();
        parts[part].print();
        return 0;
    }
    fail("say ratios, growth or speed");
}
