// SHA-256 in plain C, as FIPS 180-4 reads: the peer that shows what the proved code costs against the same algorithm
// in C. Nothing is unrolled or kept in a window by hand.
#include "plain.h"
#include <string.h>

static const uint32_t K[64] = {
    0x428a2f98, 0x71374491, 0xb5c0fbcf, 0xe9b5dba5, 0x3956c25b, 0x59f111f1, 0x923f82a4, 0xab1c5ed5,
    0xd807aa98, 0x12835b01, 0x243185be, 0x550c7dc3, 0x72be5d74, 0x80deb1fe, 0x9bdc06a7, 0xc19bf174,
    0xe49b69c1, 0xefbe4786, 0x0fc19dc6, 0x240ca1cc, 0x2de92c6f, 0x4a7484aa, 0x5cb0a9dc, 0x76f988da,
    0x983e5152, 0xa831c66d, 0xb00327c8, 0xbf597fc7, 0xc6e00bf3, 0xd5a79147, 0x06ca6351, 0x14292967,
    0x27b70a85, 0x2e1b2138, 0x4d2c6dfc, 0x53380d13, 0x650a7354, 0x766a0abb, 0x81c2c92e, 0x92722c85,
    0xa2bfe8a1, 0xa81a664b, 0xc24b8b70, 0xc76c51a3, 0xd192e819, 0xd6990624, 0xf40e3585, 0x106aa070,
    0x19a4c116, 0x1e376c08, 0x2748774c, 0x34b0bcb5, 0x391c0cb3, 0x4ed8aa4a, 0x5b9cca4f, 0x682e6ff3,
    0x748f82ee, 0x78a5636f, 0x84c87814, 0x8cc70208, 0x90befffa, 0xa4506ceb, 0xbef9a3f7, 0xc67178f2,
};

static const uint32_t INITIAL[8] = {
    0x6a09e667, 0xbb67ae85, 0x3c6ef372, 0xa54ff53a, 0x510e527f, 0x9b05688c, 0x1f83d9ab, 0x5be0cd19,
};

static uint32_t rotr(uint32_t x, int n) { return x >> n | x << (32 - n); }
static uint32_t ch(uint32_t x, uint32_t y, uint32_t z) { return (x & y) ^ (~x & z); }
static uint32_t maj(uint32_t x, uint32_t y, uint32_t z) { return (x & y) ^ (x & z) ^ (y & z); }
static uint32_t big0(uint32_t x) { return rotr(x, 2) ^ rotr(x, 13) ^ rotr(x, 22); }
static uint32_t big1(uint32_t x) { return rotr(x, 6) ^ rotr(x, 11) ^ rotr(x, 25); }
static uint32_t small0(uint32_t x) { return rotr(x, 7) ^ rotr(x, 18) ^ x >> 3; }
static uint32_t small1(uint32_t x) { return rotr(x, 17) ^ rotr(x, 19) ^ x >> 10; }

// Section 6.2.2: the hash value after one block of 64 bytes.
static void compress(uint32_t hash[8], const uint8_t *block)
{
    uint32_t w[64];
    for (int t = 0; t < 16; t++) {
        const uint8_t *b = block + 4 * t;
        w[t] = (uint32_t)b[0] << 24 | (uint32_t)b[1] << 16 | (uint32_t)b[2] << 8 | b[3];
    }
    for (int t = 16; t < 64; t++)
        w[t] = small1(w[t - 2]) + w[t - 7] + small0(w[t - 15]) + w[t - 16];

    uint32_t a = hash[0], b = hash[1], c = hash[2], d = hash[3];
    uint32_t e = hash[4], f = hash[5], g = hash[6], h = hash[7];
    for (int t = 0; t < 64; t++) {
        uint32_t t1 = h + big1(e) + ch(e, f, g) + K[t] + w[t];
        uint32_t t2 = big0(a) + maj(a, b, c);
        h = g;
        g = f;
        f = e;
        e = d + t1;
        d = c;
        c = b;
        b = a;
        a = t1 + t2;
    }
    hash[0] += a;
    hash[1] += b;
    hash[2] += c;
    hash[3] += d;
    hash[4] += e;
    hash[5] += f;
    hash[6] += g;
    hash[7] += h;
}

// The whole blocks of the bytes.
static void compress_all(uint32_t hash[8], const uint8_t *bytes, size_t length)
{
    for (; length >= 64; length -= 64, bytes += 64)
        compress(hash, bytes);
}

// Section 5.1.1: what is left, a 1 bit, zeros, and the length in bits: one block, or two if it does not fit.
static void finish(uint32_t hash[8], const uint8_t *left, uint64_t total, uint8_t digest[32])
{
    uint8_t last[128] = {0};
    size_t rest = total % 64, end = rest < 56 ? 64 : 128;
    memcpy(last, left, rest);
    last[rest] = 0x80;
    for (int i = 0; i < 8; i++)
        last[end - 1 - i] = (uint8_t)(total * 8 >> 8 * i);
    compress_all(hash, last, end);
    for (int i = 0; i < 32; i++)
        digest[i] = (uint8_t)(hash[i / 4] >> (24 - i % 4 * 8));
}

void sha256_of(const uint8_t *message, size_t length, uint8_t digest[32])
{
    uint32_t hash[8];
    memcpy(hash, INITIAL, sizeof hash);
    compress_all(hash, message, length);
    finish(hash, message + length / 64 * 64, length, digest);
}

void sha256_start(struct sha256 *s)
{
    memcpy(s->hash, INITIAL, sizeof s->hash);
    s->total = 0;
}

void sha256_add(struct sha256 *s, const uint8_t *bytes, size_t length)
{
    size_t filled = s->total % 64;
    s->total += length;
    if (filled != 0) {
        size_t more = length < 64 - filled ? length : 64 - filled;
        memcpy(s->block + filled, bytes, more);
        if (filled + more < 64)
            return;
        compress(s->hash, s->block);
        bytes += more;
        length -= more;
    }
    compress_all(s->hash, bytes, length);
    memcpy(s->block, bytes + length / 64 * 64, length % 64);
}

void sha256_end(struct sha256 *s, uint8_t digest[32])
{
    finish(s->hash, s->block, s->total, digest);
}
