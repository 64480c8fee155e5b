#include "implementations.h"
#include <openssl/evp.h>
#include <openssl/hmac.h>
#include <openssl/sha.h>
#include <sodium.h>

// The Rattle functions that crates/speed_c exports; a slice is a pointer and a length.
void speed_hash(const uint8_t *message, size_t length, uint8_t *room, size_t room_length);
void speed_mac(const uint8_t *key, size_t key_length, const uint8_t *message, size_t length, uint8_t *room, size_t room_length);
attest_function speed_attest;
trace_function speed_trace;
judge_function speed_judge;

hash_function rustcrypto_sha256;
mac_function rustcrypto_hmac;

static void our_hash(const uint8_t *message, size_t length, uint8_t digest[32])
{
    speed_hash(message, length, digest, 32);
}

static void our_mac(const uint8_t *key, size_t key_length, const uint8_t *message, size_t length, uint8_t mac[32])
{
    speed_mac(key, key_length, message, length, mac, 32);
}

static void sodium_hash(const uint8_t *message, size_t length, uint8_t digest[32])
{
    crypto_hash_sha256(digest, message, length);
}

static void sodium_mac(const uint8_t *key, size_t key_length, const uint8_t *message, size_t length, uint8_t mac[32])
{
    crypto_auth_hmacsha256_state s;
    crypto_auth_hmacsha256_init(&s, key, key_length);
    crypto_auth_hmacsha256_update(&s, message, length);
    crypto_auth_hmacsha256_final(&s, mac);
}

static void openssl_hash(const uint8_t *message, size_t length, uint8_t digest[32])
{
    SHA256(message, length, digest);
}

static void openssl_mac(const uint8_t *key, size_t key_length, const uint8_t *message, size_t length, uint8_t mac[32])
{
    HMAC(EVP_sha256(), key, (int)key_length, message, length, mac, NULL);
}

#define DECLARE_PLAIN(prefix)        \
    hash_function prefix##_hash;     \
    mac_function prefix##_mac;       \
    attest_function prefix##_attest; \
    trace_function prefix##_trace;   \
    judge_function prefix##_judge;
#define PLAIN(prefix) prefix##_hash, prefix##_mac, prefix##_attest, prefix##_trace, prefix##_judge

DECLARE_PLAIN(kit)
DECLARE_PLAIN(gcc)
DECLARE_PLAIN(clang)

const struct implementation all[COUNT] = {
    {"ours", our_hash, our_mac, speed_attest, speed_trace, speed_judge},
    {"plain C, kit's clang", PLAIN(kit)},
    {"plain C, gcc", PLAIN(gcc)},
#ifdef WITH_CLANG
    {"plain C, clang", PLAIN(clang)},
#endif
    {"RustCrypto, soft", rustcrypto_sha256, rustcrypto_hmac, NULL, NULL, NULL},
    {"libsodium", sodium_hash, sodium_mac, NULL, NULL, NULL},
    {"OpenSSL", openssl_hash, openssl_mac, NULL, NULL, NULL},
};
