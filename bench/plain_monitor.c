// The monitor in plain C: the rules are asked one after another until one applies.
#include "plain.h"
#include <string.h>

static bool in(const struct region *r, unsigned a)
{
    return r->lo <= a && a <= r->hi;
}

static bool step_fails(const uint8_t *s)
{
    return s[6] >= 32 || s[9] != 0 || s[10] != 0 || s[11] != 0;
}

static int cause(const struct region *r, bool held, unsigned last, const uint8_t *s)
{
    unsigned pc = word(s), cpu = word(s + 2), dma = word(s + 4), flags = s[6];
    bool reads = flags & 1, writes = flags & 2, interrupt = flags & 4, active = flags & 8, stores = flags & 16;
    bool code = in(&r[CR], pc);
    if (held && pc != 0)
        return 15;
    if (!code && reads && in(&r[KR], cpu))
        return 1;
    if (!held && in(&r[CR], last) && last != r[CR].hi && !code)
        return 2;
    if (!held && !in(&r[CR], last) && code && pc != r[CR].lo)
        return 3;
    if (!held && interrupt && code)
        return 4;
    if (!code && (reads || writes) && in(&r[XS], cpu))
        return 5;
    if (!held && code && writes && !in(&r[XS], cpu) && !in(&r[MR], cpu) && !in(&r[CTR], cpu))
        return 6;
    if (active && in(&r[KR], dma))
        return 7;
    if (active && in(&r[XS], dma))
        return 8;
    if (!held && active && code)
        return 9;
    if ((!code && writes && in(&r[CTR], cpu)) || (active && stores && in(&r[CTR], dma)))
        return 10;
    return 0;
}

static void store(const struct region *r, uint8_t *memory, unsigned a, uint8_t v)
{
    if (!in(&r[CR], a) && !in(&r[KR], a))
        memory[a] = v;
}

void run_trace(const struct region *r, const uint8_t *trace, size_t steps, uint8_t *memory, uint8_t *room)
{
    bool held = true;
    unsigned last = 0;
    for (size_t i = 0; i < steps; i++) {
        const uint8_t *s = trace + STEP * i;
        uint8_t *answer = room + ANSWER * i;
        unsigned pc = word(s), cpu = word(s + 2), dma = word(s + 4), flags = s[6];
        int c = cause(r, held, last, s);
        memset(answer, 0, ANSWER);
        answer[0] = (uint8_t)c;
        held = c != 0;
        last = pc;
        if (held)
            continue;
        if ((flags & 1) && !in(&r[CR], pc)) {
            answer[1] |= 1;
            answer[2] = memory[cpu];
        }
        if ((flags & 8) && !(flags & 16)) {
            answer[1] |= 2;
            answer[3] = memory[dma];
        }
        if (flags & 2)
            store(r, memory, cpu, s[7]);
        if ((flags & 8) && (flags & 16))
            store(r, memory, dma, s[8]);
    }
}

int trace_fails(const uint8_t *trace, size_t length, size_t room_length)
{
    size_t steps = length / STEP;
    if (length % STEP != 0 || steps > MOST_STEPS)
        return 7;
    if (room_length < ANSWER * steps)
        return 8;
    for (size_t i = 0; i < steps; i++)
        if (step_fails(trace + STEP * i))
            return 9;
    return 0;
}

size_t judge_trace(uint8_t *memory, size_t memory_length, const uint8_t *layout, size_t layout_length,
                   const uint8_t *trace, size_t length, uint8_t *room, size_t room_length)
{
    struct region r[REGIONS];
    if (memory_length != MEMORY)
        return 1;
    int refusal = read_layout(layout, layout_length, r);
    if (refusal == 0)
        refusal = trace_fails(trace, length, room_length);
    if (refusal != 0)
        return (size_t)refusal;
    run_trace(r, trace, length / STEP, memory, room);
    return 0;
}
