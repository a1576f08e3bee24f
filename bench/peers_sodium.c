/* libsodium's sealing with a tag. HAVE_PACKAGE says that Debian's package is there. */
#include "peers.h"

#ifdef HAVE_PACKAGE
#include <sodium.h>

static const unsigned char counted[crypto_aead_chacha20poly1305_ietf_KEYBYTES] = {
    0, 1, 2, 3, 4, 5, 6, 7, 8, 9, 10, 11, 12, 13, 14, 15,
    16, 17, 18, 19, 20, 21, 22, 23, 24, 25, 26, 27, 28, 29, 30, 31,
};

_Static_assert(crypto_aead_chacha20poly1305_ietf_ABYTES == PEER_TAG_BYTES, "a letter's tag is as long");

/* The library picks its code for this processor when it begins, and not at each call. */
static const char *missing(size_t which)
{
    (void)which;
    return sodium_init() < 0 ? "the library does not begin" : NULL;
}

static void seal(size_t which, struct letter *letter)
{
    (void)which;
    crypto_aead_chacha20poly1305_ietf_encrypt_detached(letter->output, letter->tag, NULL, letter->input, letter->count,
                                                       letter->associated, letter->associated_count, NULL,
                                                       counted, counted);
}

static int open(size_t which, struct letter *letter)
{
    (void)which;
    return crypto_aead_chacha20poly1305_ietf_decrypt_detached(letter->output, NULL, letter->input, letter->count,
                                                              letter->tag, letter->associated,
                                                              letter->associated_count, counted, counted) == 0;
}

#define CALLS missing, seal, open
#else
static const char *missing(size_t which)
{
    (void)which;
    return "Debian's package could not be had";
}

#define CALLS missing, NULL, NULL
#endif

const struct tag_peer sodium_peers[] = { { "ChaCha20-Poly1305, libsodium", 0, CALLS } };

const size_t sodium_peer_count = sizeof sodium_peers / sizeof sodium_peers[0];
