// Attestation on a board's memory in plain C.
#include "plain.h"
#include <string.h>

// Goes over all bytes, whatever it finds: the token is compared with a secret.
static bool same(const uint8_t *a, const uint8_t *b, size_t length)
{
    uint8_t differing = 0;
    for (size_t i = 0; i < length; i++)
        differing |= a[i] ^ b[i];
    return differing == 0;
}

size_t attest(uint8_t *memory, size_t memory_length, const uint8_t *layout, size_t layout_length)
{
    struct region r[REGIONS];
    if (memory_length != MEMORY)
        return 1;
    int refusal = read_layout(layout, layout_length, r);
    if (refusal != 0)
        return (size_t)refusal;

    const uint8_t *key = memory + r[KR].lo;
    uint8_t *challenge = memory + r[MR].lo, *received = challenge + 32, *reply = challenge + 64;
    uint8_t *counter = memory + r[CTR].lo;
    uint8_t token[32], one_time_key[32];
    if (memcmp(challenge, counter, 32) <= 0)
        return 10;
    hmac_of(key, 64, challenge, 32, token);
    if (!same(token, received, 32))
        return 11;
    hmac_of(key, 64, token, 32, one_time_key);
    hmac_of(one_time_key, 32, memory + r[AR].lo, (size_t)(r[AR].hi - r[AR].lo) + 1, reply);
    memcpy(counter, challenge, 32);
    return 0;
}
