// All that is measured, in one table: ours, plain C by each compiler, and the libraries.
#ifndef IMPLEMENTATIONS_H
#define IMPLEMENTATIONS_H
#include "board.h"

typedef void hash_function(const uint8_t *message, size_t length, uint8_t digest[32]);
typedef void mac_function(const uint8_t *key, size_t key_length, const uint8_t *message, size_t length, uint8_t mac[32]);
typedef size_t attest_function(uint8_t *memory, size_t memory_length, const uint8_t *layout, size_t layout_length);
typedef size_t trace_function(uint8_t *memory, size_t memory_length, const uint8_t *layout, size_t layout_length,
                              const uint8_t *trace, size_t length, uint8_t *room, size_t room_length);
typedef size_t judge_function(const uint8_t *file, size_t length, uint8_t *memory, size_t memory_length, uint8_t *room,
                              size_t room_length);

// What an implementation does not have is NULL.
struct implementation {
    const char *name;
    hash_function *hash;
    mac_function *mac;
    attest_function *attest;
    trace_function *trace;
    judge_function *judge;
};

#ifdef WITH_CLANG
enum { COUNT = 7, BOARDS = 4 };
#else
enum { COUNT = 6, BOARDS = 3 };
#endif
// Ours is the first; the first BOARDS have all five functions.
extern const struct implementation all[COUNT];

#endif
