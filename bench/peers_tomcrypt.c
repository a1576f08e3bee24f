/*
 * libtomcrypt's stream ciphers. HAVE_PACKAGE says that Debian's package is there; which of the ciphers it has depends on
 * its version.
 */
#include "peers.h"

#ifdef HAVE_PACKAGE
#include <tomcrypt.h>
#define CAUSE "Debian's version of the library has none"

static const unsigned char counted[16] = { 0, 1, 2, 3, 4, 5, 6, 7, 8, 9, 10, 11, 12, 13, 14, 15 };

enum { KEY_BYTES = sizeof counted, LONG_VALUE_BYTES = sizeof counted, SHORT_VALUE_BYTES = 8 };
#else
#define CAUSE "Debian's package could not be had"
#endif

#ifdef LTC_SOBER128_STREAM
static sober128_state sober128;

static void sober128_restart(void)
{
    sober128_stream_setup(&sober128, counted, KEY_BYTES);
    sober128_stream_setiv(&sober128, counted, LONG_VALUE_BYTES);
}

static void sober128_encipher(const uint8_t *input, uint8_t *output, size_t count)
{
    sober128_stream_crypt(&sober128, input, count, output);
}

#define SOBER128 NULL, sober128_restart, sober128_encipher
#else
#define SOBER128 CAUSE, NULL, NULL
#endif

#ifdef LTC_CHACHA
static chacha_state chacha20;

static void chacha20_restart(void)
{
    chacha_setup(&chacha20, counted, KEY_BYTES, 20);
    chacha_ivctr64(&chacha20, counted, SHORT_VALUE_BYTES, 0);
}

static void chacha20_encipher(const uint8_t *input, uint8_t *output, size_t count)
{
    chacha_crypt(&chacha20, input, count, output);
}

#define CHACHA20 NULL, chacha20_restart, chacha20_encipher
#else
#define CHACHA20 CAUSE, NULL, NULL
#endif

const struct peer tomcrypt_peers[] = {
    { "SOBER-128, libtomcrypt", SOBER128 },
    { "ChaCha20, libtomcrypt", CHACHA20 },
};

const size_t tomcrypt_peer_count = sizeof tomcrypt_peers / sizeof tomcrypt_peers[0];
