// HMAC-SHA-256 in plain C, as FIPS 198-1 reads. A key or a message over 65,536 bytes gives zeros.
#include "plain.h"
#include <string.h>

// The hash of the key's block, masked, and the bytes behind it.
static void hash_behind(const uint8_t key[64], uint8_t mask, const uint8_t *bytes, size_t length, uint8_t digest[32])
{
    struct sha256 s;
    uint8_t block[64];
    for (int i = 0; i < 64; i++)
        block[i] = key[i] ^ mask;
    sha256_start(&s);
    sha256_add(&s, block, sizeof block);
    sha256_add(&s, bytes, length);
    sha256_end(&s, digest);
}

void hmac_of(const uint8_t *key, size_t key_length, const uint8_t *message, size_t length, uint8_t mac[32])
{
    uint8_t block[64] = {0}, inner[32];
    if (key_length > 65536 || length > 65536) {
        memset(mac, 0, 32);
        return;
    }
    if (key_length > 64)
        sha256_of(key, key_length, block);
    else
        memcpy(block, key, key_length);
    hash_behind(block, 0x36, message, length, inner);
    hash_behind(block, 0x5c, inner, sizeof inner, mac);
}
