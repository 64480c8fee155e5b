// The same work in plain C. bench/run compiles the files plain_*.c by several compilers and gives each a PREFIX for the
// names, so that one program can hold them all.
#ifndef PLAIN_H
#define PLAIN_H
#include "board.h"

#define JOINED(a, b) a##_##b
#define JOIN(a, b) JOINED(a, b)
#define NAMED(name) JOIN(PREFIX, name)

// ---- plain_sha256.c: the whole message at once, and piece by piece

struct sha256 {
    uint32_t hash[8];
    uint8_t block[64];
    uint64_t total;
};

#define sha256_of NAMED(hash)
#define sha256_start NAMED(hash_start)
#define sha256_add NAMED(hash_add)
#define sha256_end NAMED(hash_end)
void sha256_of(const uint8_t *message, size_t length, uint8_t digest[32]);
void sha256_start(struct sha256 *s);
void sha256_add(struct sha256 *s, const uint8_t *bytes, size_t length);
void sha256_end(struct sha256 *s, uint8_t digest[32]);

// ---- plain_hmac.c

#define hmac_of NAMED(mac)
void hmac_of(const uint8_t *key, size_t key_length, const uint8_t *message, size_t length, uint8_t mac[32]);

// ---- plain_layout.c: 0, or the number of the refusal

#define read_layout NAMED(read_layout)
int read_layout(const uint8_t *layout, size_t length, struct region r[REGIONS]);

// ---- plain_attest.c, plain_monitor.c, plain_judge.c: likewise

#define attest NAMED(attest)
size_t attest(uint8_t *memory, size_t memory_length, const uint8_t *layout, size_t layout_length);

#define trace_fails NAMED(trace_fails)
#define run_trace NAMED(run_trace)
#define judge_trace NAMED(trace)
int trace_fails(const uint8_t *trace, size_t length, size_t room_length);
void run_trace(const struct region *r, const uint8_t *trace, size_t steps, uint8_t *memory, uint8_t *room);
size_t judge_trace(uint8_t *memory, size_t memory_length, const uint8_t *layout, size_t layout_length,
                   const uint8_t *trace, size_t length, uint8_t *room, size_t room_length);

#define judge_file NAMED(judge)
size_t judge_file(const uint8_t *file, size_t length, uint8_t *memory, size_t memory_length, uint8_t *room,
                  size_t room_length);

#endif
