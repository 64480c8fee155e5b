#include "agree.h"
#include "implementations.h"
#include "inputs.h"
#include <stdio.h>
#include <stdlib.h>
#include <string.h>

enum { LONGEST = 131072, MOST_KEY = 65536, TRIES = 4000, NUMBERS = 16 };

static uint8_t message[LONGEST + 1];
static uint8_t memory[COUNT][MEMORY], room[COUNT][ROOM], original[MEMORY], mailbox[MAILBOX];
static uint8_t layout[LAYOUT], trace[LONGEST_TRACE + STEP], file[MOST_FILE + 1], segment[MOST_FILE];

static void differ(int i, const char *what)
{
    fprintf(stderr, "measure: %s and ours differ on %s\n", all[i].name, what);
    exit(1);
}

// ---- hash and MAC

static void same_hash(size_t length)
{
    uint8_t digest[COUNT][32] = {{0}};
    for (int i = 0; i < COUNT; i++) {
        all[i].hash(message, length, digest[i]);
        if (memcmp(digest[i], digest[0], 32) != 0)
            differ(i, "a hash");
    }
}

// Only ours and plain C refuse what is too long.
static void same_mac(size_t key_length, size_t length, int count)
{
    uint8_t mac[COUNT][32] = {{0}};
    for (int i = 0; i < count; i++) {
        all[i].mac(message + 7, key_length, message, length, mac[i]);
        if (memcmp(mac[i], mac[0], 32) != 0)
            differ(i, "a MAC");
    }
}

static void agree_on_bytes(void)
{
    fill_random(message, sizeof message);
    // Every place in a block where a message can end, more than twice over; then long ones.
    for (size_t length = 0; length <= 200; length++) {
        same_hash(length);
        same_mac(length, 200 - length, COUNT);
        same_mac(64, length, COUNT);
    }
    for (size_t length = 1; length <= LONGEST; length *= 2) {
        same_hash(length - 1);
        same_hash(length);
    }
    for (size_t length = 1; length <= MOST_KEY; length *= 2) {
        same_mac(length, length - 1, COUNT);
        same_mac(length - 1, length, COUNT);
    }
    same_mac(MOST_KEY + 1, 64, BOARDS);
    same_mac(64, MOST_KEY + 1, BOARDS);
}

// ---- attestation, traces and files: the answer, and every byte of memory and room afterwards

static void set_out(void)
{
    for (int i = 0; i < BOARDS; i++) {
        memcpy(memory[i], original, MEMORY);
        memset(room[i], 0xa5, ROOM);
    }
}

static size_t same(const size_t number[], const char *what)
{
    for (int i = 1; i < BOARDS; i++)
        if (number[i] != number[0] || memcmp(memory[i], memory[0], MEMORY) != 0 || memcmp(room[i], room[0], ROOM) != 0)
            differ(i, what);
    return number[0];
}

static size_t same_attest(size_t memory_length, size_t layout_length)
{
    size_t number[BOARDS];
    set_out();
    for (int i = 0; i < BOARDS; i++)
        number[i] = all[i].attest(memory[i], memory_length, layout, layout_length);
    return same(number, "an attestation");
}

static size_t same_trace(size_t memory_length, size_t layout_length, size_t length, size_t room_length)
{
    size_t number[BOARDS];
    set_out();
    for (int i = 0; i < BOARDS; i++)
        number[i] = all[i].trace(memory[i], memory_length, layout, layout_length, trace, length, room[i], room_length);
    return same(number, "a trace");
}

static size_t same_file(size_t length, size_t memory_length, size_t room_length)
{
    size_t number[BOARDS];
    set_out();
    for (int i = 0; i < BOARDS; i++)
        number[i] = all[i].judge(file, length, memory[i], memory_length, room[i], room_length);
    return same(number, "a run file");
}

// One in n.
static bool now_and_then(unsigned n)
{
    return below(n) == 0;
}

// Some byte becomes any other.
static void spoil(uint8_t *bytes, size_t length)
{
    bytes[below((unsigned)length)] = (uint8_t)below(256);
}

// Another lowest or highest address for some region, near one that stands there.
static void shift_region(void)
{
    uint8_t *to = layout + 2 * below(2 * REGIONS), *from = layout + 2 * below(2 * REGIONS);
    unsigned a = word(from) + below(3) - 1;
    to[0] = (uint8_t)a;
    to[1] = (uint8_t)(a >> 8);
}

static void spoil_layout(void)
{
    make_layout(layout, 1 + below(now_and_then(50) ? 32768 : 256));
    if (now_and_then(4))
        shift_region();
    if (now_and_then(8))
        spoil(layout, LAYOUT);
    if (now_and_then(50))
        layout[0] = layout[1] = 0;
}

static void spoil_request(void)
{
    memcpy(original + 0x230, mailbox, MAILBOX);
    memset(original + 0x300, 0, COUNTER);
    if (now_and_then(4))
        spoil(original + 0x230, 64);
    if (now_and_then(4))
        memcpy(original + 0x300, original + 0x230, 1 + below(32));
    if (now_and_then(4))
        spoil(original + 0x300, COUNTER);
}

static void spoil_steps(size_t steps)
{
    static steps_function *const kinds[] = {reading, working, visiting, wild};
    kinds[below(4)](trace, steps);
    if (steps > 0 && now_and_then(8))
        trace[STEP * below((unsigned)steps) + 9 + below(3)] = 1;
    if (steps > 0 && now_and_then(8))
        trace[STEP * below((unsigned)steps) + 6] = (uint8_t)below(256);
}

// A few segments one behind another, of which now and then one byte is wrong.
static size_t some_segments(void)
{
    size_t at = 0, start = below(100);
    for (unsigned n = below(5); n > 0; n--) {
        size_t size = 1 + below(30);
        segment[at] = (uint8_t)start, segment[at + 1] = (uint8_t)(start >> 8);
        segment[at + 2] = (uint8_t)size, segment[at + 3] = 0;
        fill_random(segment + at + 4, size);
        at += 4 + size;
        start += size + below(20000);
    }
    if (at > 0 && now_and_then(3))
        spoil(segment, at);
    return at;
}

// Every refusal of the call has to come up, or the trial shows too little.
static void all_seen(const bool seen[NUMBERS], const char *numbers, const char *what)
{
    for (int n = 0; n < NUMBERS; n++)
        if (seen[n] != (numbers[n] == 'x')) {
            fprintf(stderr, "measure: the trial of %s %s %d\n", what, seen[n] ? "met" : "never met", n);
            exit(1);
        }
}

static void agree_on_attest(void)
{
    bool seen[NUMBERS] = {false};
    make_board(original, mailbox);
    for (int t = 0; t < TRIES; t++) {
        spoil_layout();
        spoil_request();
        seen[same_attest(MEMORY - now_and_then(50), LAYOUT - now_and_then(50))] = true;
    }
    all_seen(seen, "xxxxxxx...xx....", "attestations");
}

static void agree_on_traces(void)
{
    bool seen[NUMBERS] = {false};
    for (int t = 0; t < TRIES; t++) {
        size_t steps = now_and_then(100) ? MOST_STEPS + below(2) : below(64);
        spoil_layout();
        spoil_steps(steps);
        size_t length = STEP * steps + (now_and_then(20) ? below(STEP) : 0), room_length = ANSWER * below(64);
        seen[same_trace(MEMORY - now_and_then(50), LAYOUT - now_and_then(50), length, now_and_then(4) ? room_length : ROOM)] = true;
    }
    all_seen(seen, "xxxxxxxxxx......", "traces");
}

static void agree_on_files(void)
{
    bool seen[NUMBERS] = {false};
    for (int t = 0; t < TRIES; t++) {
        size_t steps = below(64), segments = some_segments();
        spoil_steps(steps);
        size_t length = make_file(file, segment, segments, trace, STEP * steps + (now_and_then(20) ? below(STEP) : 0));
        spoil_layout();
        memcpy(file + CONTENTS, layout, LAYOUT);
        if (now_and_then(10))
            spoil(file, CONTENTS);
        if (now_and_then(50))
            length = below((unsigned)length);
        if (now_and_then(50))
            length = MOST_FILE + 1;
        seen[same_file(length, MEMORY - now_and_then(50), now_and_then(4) ? ANSWER * below(64) : ROOM)] = true;
    }
    all_seen(seen, "xx.xxxxxxx...xxx", "run files");
}

void agree_on_all(void)
{
    reseed();
    agree_on_bytes();
    agree_on_attest();
    agree_on_traces();
    agree_on_files();
}
