// The rules page's sizes, and a region.
#ifndef BOARD_H
#define BOARD_H
#include <stdbool.h>
#include <stddef.h>
#include <stdint.h>

enum { MEMORY = 65536, STEP = 12, ANSWER = 4, MOST_STEPS = 4096 };
enum { CR, KR, XS, MR, CTR, AR, REGIONS };

struct region {
    uint16_t lo, hi;
};

static inline unsigned word(const uint8_t *b)
{
    return b[0] + 256u * b[1];
}

#endif
