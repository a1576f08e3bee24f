// Crypto++'s stream ciphers: the software ciphers of the eSTREAM portfolio, and ChaCha20. HAVE_PACKAGE says that Debian's
// package is there; which of the ciphers it has depends on its version.
#include "peers.h"

#include <vector>

#ifdef HAVE_PACKAGE
#include <cryptopp/algparam.h>
#include <cryptopp/argnames.h>
#define CAUSE "Debian's version of the library has none"
#else
#define CAUSE "Debian's package could not be had"
#endif

#if defined HAVE_PACKAGE && __has_include(<cryptopp/hc128.h>)
#include <cryptopp/hc128.h>
#define HC128 present<CryptoPP::HC128>
#else
#define HC128 absent
#endif

#if defined HAVE_PACKAGE && __has_include(<cryptopp/rabbit.h>)
#include <cryptopp/rabbit.h>
#define RABBIT present<CryptoPP::RabbitWithIV>
#else
#define RABBIT absent
#endif

#if defined HAVE_PACKAGE && __has_include(<cryptopp/sosemanuk.h>)
#include <cryptopp/sosemanuk.h>
#define SOSEMANUK present<CryptoPP::Sosemanuk>
#else
#define SOSEMANUK absent
#endif

#if defined HAVE_PACKAGE && __has_include(<cryptopp/salsa.h>)
#include <cryptopp/salsa.h>
#define SALSA20_12 present<CryptoPP::Salsa20, 12>
#else
#define SALSA20_12 absent
#endif

#if defined HAVE_PACKAGE && __has_include(<cryptopp/chacha.h>)
#include <cryptopp/chacha.h>
#define CHACHA20 present<CryptoPP::ChaCha, 20>
#else
#define CHACHA20 absent
#endif

namespace {

#ifdef HAVE_PACKAGE

std::vector<uint8_t> counted(size_t length)
{
    std::vector<uint8_t> bytes(length);
    for (size_t at = 0; at < length; at++) bytes[at] = static_cast<uint8_t>(at);
    return bytes;
}

// With 0 rounds the cipher is one that has no choice of them.
template <class Cipher, int rounds> struct Stream {
    static typename Cipher::Encryption cipher;

    static void restart()
    {
        const auto key = counted(cipher.DefaultKeyLength());
        const auto value = counted(cipher.IVSize());
        auto parameters = CryptoPP::MakeParameters(
            CryptoPP::Name::IV(), CryptoPP::ConstByteArrayParameter(value.data(), value.size()));
        if (rounds != 0) parameters(CryptoPP::Name::Rounds(), rounds);
        cipher.SetKey(key.data(), key.size(), parameters);
    }

    static void encipher(const uint8_t *input, uint8_t *output, size_t count)
    {
        cipher.ProcessData(output, input, count);
    }
};

template <class Cipher, int rounds> typename Cipher::Encryption Stream<Cipher, rounds>::cipher;

template <class Cipher, int rounds = 0> constexpr peer present(const char *name)
{
    return {name, nullptr, Stream<Cipher, rounds>::restart, Stream<Cipher, rounds>::encipher};
}

#endif

[[maybe_unused]] constexpr peer absent(const char *name) { return {name, CAUSE, nullptr, nullptr}; }

} // namespace

extern "C" const peer cryptopp_peers[] = {
    HC128("HC-128, Crypto++"),
    RABBIT("Rabbit, Crypto++"),
    SOSEMANUK("Sosemanuk, Crypto++"),
    SALSA20_12("Salsa20/12, Crypto++"),
    CHACHA20("ChaCha20, Crypto++"),
};

extern "C" const size_t cryptopp_peer_count = sizeof cryptopp_peers / sizeof cryptopp_peers[0];
