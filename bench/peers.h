/* Other ciphers, from Debian's packages. Without its package a peer is still listed, with the cause. */
#ifndef PEERS_H
#define PEERS_H

#include <stddef.h>
#include <stdint.h>

#ifdef __cplusplus
extern "C" {
#endif

struct peer {
    const char *name;
    const char *missing; /* NULL, or why it is not here; then the calls below are NULL */
    void (*restart)(void); /* sets key and initial value, the same ones each time */
    void (*encipher)(const uint8_t *input, uint8_t *output, size_t count);
};

enum { PEER_TAG_BYTES = 16 };

/* What is sealed with a tag, or opened. */
struct letter {
    const uint8_t *associated;
    size_t associated_count;
    const uint8_t *input;
    uint8_t *output;
    size_t count;
    uint8_t tag[PEER_TAG_BYTES];
};

/* One that seals with a tag. Each call begins with key and nonce, the same ones each time, as the library's do. */
struct tag_peer {
    const char *name;
    size_t which; /* of its package's, which share the calls below */
    const char *(*missing)(size_t which); /* answers NULL, or why it is not here; to be called before the others */
    void (*seal)(size_t which, struct letter *letter);
    int (*open)(size_t which, struct letter *letter); /* answers whether the tag is right */
};

extern const struct peer cryptopp_peers[];
extern const size_t cryptopp_peer_count;
extern const struct peer tomcrypt_peers[];
extern const size_t tomcrypt_peer_count;
extern const struct tag_peer sodium_peers[];
extern const size_t sodium_peer_count;
extern const struct tag_peer openssl_peers[];
extern const size_t openssl_peer_count;

#ifdef __cplusplus
}
#endif

#endif
