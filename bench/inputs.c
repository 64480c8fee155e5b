#include "inputs.h"
#include "implementations.h"
#include <string.h>

// CR, KR, XS, MR and CTR of the rules page's case.
static const struct region regions[AR] = {
    {0xa000, 0xa0ff}, {0x6a00, 0x6a3f}, {0x0400, 0x07ff}, {0x0230, 0x028f}, {0x0300, 0x031f},
};

static uint32_t seed;

void reseed(void)
{
    seed = 1;
}

unsigned below(unsigned n)
{
    seed = seed * 1664525 + 1013904223;
    return (seed >> 8) % n;
}

void fill_random(uint8_t *to, size_t bytes)
{
    for (size_t i = 0; i < bytes; i++)
        to[i] = (uint8_t)below(256);
}

static void put(uint8_t *to, size_t bytes, size_t value)
{
    for (size_t i = 0; i < bytes; i++)
        to[i] = (uint8_t)(value >> 8 * i);
}

void make_layout(uint8_t layout[LAYOUT], size_t attested)
{
    for (int k = 0; k < AR; k++) {
        put(layout + 4 * k, 2, regions[k].lo);
        put(layout + 4 * k + 2, 2, regions[k].hi);
    }
    put(layout + 4 * AR, 2, MEMORY - attested);
    put(layout + 4 * AR + 2, 2, MEMORY - 1);
}

void make_board(uint8_t memory[MEMORY], uint8_t mailbox[MAILBOX])
{
    reseed();
    fill_random(memory, MEMORY);
    memcpy(mailbox, memory + regions[MR].lo, MAILBOX);
    mailbox[0] = 1; // so that the challenge is greater than a counter of zeros
    all[0].mac(memory + regions[KR].lo, 64, mailbox, 32, mailbox + 32);
    renew_request(memory, mailbox);
}

void renew_request(uint8_t memory[MEMORY], const uint8_t mailbox[MAILBOX])
{
    memcpy(memory + regions[MR].lo, mailbox, MAILBOX);
    memset(memory + regions[CTR].lo, 0, COUNTER);
}

static void step(uint8_t *s, unsigned pc, unsigned cpu, unsigned dma, unsigned flags)
{
    memset(s, 0, STEP);
    put(s, 2, pc);
    put(s + 2, 2, cpu);
    put(s + 4, 2, dma);
    s[6] = (uint8_t)flags;
    s[7] = (uint8_t)below(256);
    s[8] = (uint8_t)below(256);
}

// CPU and DMA read in AR at every step: the longest text of all.
void reading(uint8_t *trace, size_t steps)
{
    for (size_t i = 0; i < steps; i++)
        step(trace + STEP * i, i == 0 ? 0 : 0xc000 + below(0x1000), 0xe000 + below(0x1000), 0xe000 + below(0x1000), 9);
}

// Reads and writes of all kinds, outside CR and in AR.
void working(uint8_t *trace, size_t steps)
{
    for (size_t i = 0; i < steps; i++)
        step(trace + STEP * i, i == 0 ? 0 : 0xc000 + below(0x1000), 0xe000 + below(0x1000), 0xe000 + below(0x1000),
             below(32) & ~4u);
}

// One visit of CR after another, of 64 steps each, that read and write in XS and MR.
void visiting(uint8_t *trace, size_t steps)
{
    for (size_t i = 0; i < steps; i++) {
        unsigned at = (unsigned)(i % 64);
        unsigned pc = i == 0 ? 0 : at == 0 ? 0xc000 : at == 63 ? 0xa0ff : 0xa000 + 2 * (at - 1);
        step(trace + STEP * i, pc, at % 2 ? 0x0400 + below(0x0400) : 0x0230 + below(0x60), 0,
             at == 0 || at == 63 ? 0 : 1 + below(3));
    }
}

// Anything at all; one PC in eight is 0.
void wild(uint8_t *trace, size_t steps)
{
    for (size_t i = 0; i < steps; i++)
        step(trace + STEP * i, below(8) == 0 ? 0 : below(65536), below(65536), below(65536), below(32));
}

size_t make_file(uint8_t file[MOST_FILE], const uint8_t *segments, size_t segments_length, const uint8_t *trace,
                 size_t trace_length)
{
    const size_t sizes[3] = {LAYOUT, segments_length, trace_length};
    size_t at = CONTENTS;
    for (int k = 0; k < 3; k++) {
        put(file + 8 * k, 4, at);
        put(file + 8 * k + 4, 4, sizes[k]);
        at += sizes[k];
    }
    make_layout(file + CONTENTS, 8192);
    memcpy(file + CONTENTS + LAYOUT, segments, segments_length);
    memcpy(file + CONTENTS + LAYOUT + segments_length, trace, trace_length);
    return at;
}

size_t largest_segment(uint8_t segment[MOST_FILE])
{
    size_t bytes = MOST_FILE - CONTENTS - LAYOUT - 4;
    put(segment, 2, 0);
    put(segment + 2, 2, bytes);
    fill_random(segment + 4, bytes);
    return 4 + bytes;
}
