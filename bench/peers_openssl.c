/*
 * OpenSSL's sealing with a tag. HAVE_PACKAGE says that Debian's package is there; which of the ciphers it has depends
 * on its version, and it is asked for each by name. Version 3.0, of Debian 12, has no Ascon, a light cipher as TRIAD.
 */
#include "peers.h"

enum { AES_128_GCM, CHACHA20_POLY1305, ASCON, CIPHERS };

#ifdef HAVE_PACKAGE
#include <openssl/evp.h>
#include <openssl/opensslv.h>
#include <stdio.h>
#include <stdlib.h>

/* As long as the longest key; a nonce is its front. */
static const unsigned char counted[32] = {
    0, 1, 2, 3, 4, 5, 6, 7, 8, 9, 10, 11, 12, 13, 14, 15,
    16, 17, 18, 19, 20, 21, 22, 23, 24, 25, 26, 27, 28, 29, 30, 31,
};

static const char *const names[CIPHERS] = { "AES-128-GCM", "ChaCha20-Poly1305", "Ascon-AEAD128" };

/* Looked up and made once, as a program would that seals many messages. */
static EVP_CIPHER *ciphers[CIPHERS];
static EVP_CIPHER_CTX *context;

static const char *missing(size_t which)
{
    if (context == NULL)
        context = EVP_CIPHER_CTX_new();
    if (ciphers[which] == NULL)
        ciphers[which] = EVP_CIPHER_fetch(NULL, names[which], NULL);
    return ciphers[which] == NULL ? "OpenSSL " OPENSSL_VERSION_STR " has none" : NULL;
}

static void done(int is_done)
{
    if (is_done)
        return;
    fprintf(stderr, "bench: OpenSSL refused a call\n");
    exit(EXIT_FAILURE);
}

static void seal(size_t which, struct letter *letter)
{
    int written;
    done(EVP_EncryptInit_ex2(context, ciphers[which], counted, counted, NULL));
    done(EVP_EncryptUpdate(context, NULL, &written, letter->associated, (int)letter->associated_count));
    done(EVP_EncryptUpdate(context, letter->output, &written, letter->input, (int)letter->count));
    done(EVP_EncryptFinal_ex(context, letter->output + written, &written));
    done(EVP_CIPHER_CTX_ctrl(context, EVP_CTRL_AEAD_GET_TAG, PEER_TAG_BYTES, letter->tag));
}

/* A wrong tag is an end that OpenSSL refuses. */
static int open(size_t which, struct letter *letter)
{
    int written;
    done(EVP_DecryptInit_ex2(context, ciphers[which], counted, counted, NULL));
    done(EVP_DecryptUpdate(context, NULL, &written, letter->associated, (int)letter->associated_count));
    done(EVP_DecryptUpdate(context, letter->output, &written, letter->input, (int)letter->count));
    done(EVP_CIPHER_CTX_ctrl(context, EVP_CTRL_AEAD_SET_TAG, PEER_TAG_BYTES, letter->tag));
    return EVP_DecryptFinal_ex(context, letter->output + written, &written) > 0;
}

#define CALLS missing, seal, open
#else
static const char *missing(size_t which)
{
    (void)which;
    return "Debian's package could not be had";
}

#define CALLS missing, NULL, NULL
#endif

const struct tag_peer openssl_peers[CIPHERS] = {
    { "AES-128-GCM, OpenSSL", AES_128_GCM, CALLS },
    { "ChaCha20-Poly1305, OpenSSL", CHACHA20_POLY1305, CALLS },
    { "Ascon-128, OpenSSL", ASCON, CALLS },
};

const size_t openssl_peer_count = CIPHERS;
