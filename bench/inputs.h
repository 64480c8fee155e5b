// What the implementations are given: random bytes, a board's layout and memory, traces and run files.
#ifndef INPUTS_H
#define INPUTS_H
#include "board.h"

enum { LAYOUT = 4 * REGIONS, CONTENTS = 24, MOST_FILE = 49152, MAILBOX = 96, COUNTER = 32 };
enum { LONGEST_TRACE = STEP * MOST_STEPS, ROOM = ANSWER * MOST_STEPS };
enum { FILE_STEPS = (MOST_FILE - CONTENTS - LAYOUT) / STEP }; // the most steps of a run file without a segment

// A random number below n; the same ones after each reseed.
void reseed(void);
unsigned below(unsigned n);
void fill_random(uint8_t *to, size_t bytes);

// CR, KR, XS, MR and CTR of the rules page's case, and an AR of this many bytes at the memory's end.
void make_layout(uint8_t layout[LAYOUT], size_t attested);

// A board's memory: random bytes, with a request in MR that this layout's attestation accepts, and CTR zero. Puts the
// mailbox as it is before the call aside, so that a call can be repeated.
void make_board(uint8_t memory[MEMORY], uint8_t mailbox[MAILBOX]);
void renew_request(uint8_t memory[MEMORY], const uint8_t mailbox[MAILBOX]);

// A kind of steps, written one after another.
typedef void steps_function(uint8_t *trace, size_t steps);
steps_function reading, working, visiting, wild;

// The run file of these bodies; answers its length. The layout's AR is 8 KiB.
size_t make_file(uint8_t file[MOST_FILE], const uint8_t *segments, size_t segments_length, const uint8_t *trace,
                 size_t trace_length);

// One segment that fills a run file without a step; answers its length.
size_t largest_segment(uint8_t segment[MOST_FILE]);

#endif
