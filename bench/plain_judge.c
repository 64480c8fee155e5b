// A run file judged by plain C: the same rules, refusals and answers as the proved code, written as one would write them.
#include "plain.h"
#include <string.h>

enum { MOST = 49152 };

static size_t number(const uint8_t *b)
{
    return b[0] + 256u * b[1] + 65536u * b[2] + 16777216u * b[3];
}

static bool contents_fail(const uint8_t *file, size_t length)
{
    if (length < 24)
        return true;
    size_t begin = 24;
    for (int k = 0; k < 3; k++) {
        size_t offset = number(file + 8 * k), size = number(file + 8 * k + 4);
        if (offset != begin || begin + size > length || (k == 0 && size != 24) || (k == 2 && begin + size < length))
            return true;
        begin += size;
    }
    return false;
}

static bool segments_fail(const uint8_t *body, size_t length)
{
    size_t at = 0, end = 0;
    while (at < length) {
        if (length - at < 4)
            return true;
        size_t start = word(body + at), size = word(body + at + 2);
        if (size == 0 || length - at - 4 < size || start < end || start + size > MEMORY)
            return true;
        end = start + size;
        at += 4 + size;
    }
    return false;
}

static void fill(const uint8_t *body, size_t length, uint8_t *memory)
{
    memset(memory, 0, MEMORY);
    for (size_t at = 0; at < length;) {
        size_t start = word(body + at), size = word(body + at + 2);
        memcpy(memory + start, body + at + 4, size);
        at += 4 + size;
    }
}

size_t judge_file(const uint8_t *file, size_t length, uint8_t *memory, size_t memory_length, uint8_t *room,
                  size_t room_length)
{
    struct region r[REGIONS];
    if (length > MOST)
        return 15;
    if (contents_fail(file, length))
        return 13;
    if (memory_length != MEMORY)
        return 1;
    int refusal = read_layout(file + 24, 24, r);
    if (refusal != 0)
        return (size_t)refusal;
    const uint8_t *body = file + 48, *trace = body + number(file + 12);
    size_t segments = (size_t)(trace - body), bytes = (size_t)(file + length - trace);
    if (segments_fail(body, segments))
        return 14;
    refusal = trace_fails(trace, bytes, room_length);
    if (refusal != 0)
        return (size_t)refusal;
    fill(body, segments, memory);
    run_trace(r, trace, bytes / STEP, memory, room);
    return 0;
}
