// Times ours beside the other implementations in one process, and prints the result as markdown tables. bench/run builds
// and runs it.
#include "timing.h"
#include "agree.h"
#include "implementations.h"
#include "inputs.h"
#include <string.h>

enum { LONGEST = 131072, KEY = 64, SIZES = 8 };

// What is being called with. Each implementation has a memory and a room of its own.
static uint8_t message[LONGEST], digest[32], key[KEY];
static uint8_t memory[COUNT][MEMORY], room[COUNT][ROOM], mailbox[MAILBOX];
static uint8_t layout[LAYOUT], trace[LONGEST_TRACE], file[MOST_FILE], segment[MOST_FILE];
static size_t length;
static double spread = 1; // the largest median of a case against its best round

// ---- the calls that are timed

static void accepted(size_t number, int i)
{
    if (number != 0) {
        fprintf(stderr, "measure: %s refused with %zu what is timed\n", all[i].name, number);
        exit(1);
    }
}

static void call_hash(int i)
{
    all[i].hash(message, length, digest);
}

static void call_mac(int i)
{
    all[i].mac(key, KEY, message, length, digest);
}

// The request is put back first, or only the first call would be accepted: 128 bytes, counted for all alike.
static void call_attest(int i)
{
    renew_request(memory[i], mailbox);
    accepted(all[i].attest(memory[i], MEMORY, layout, LAYOUT), i);
}

static void call_trace(int i)
{
    accepted(all[i].trace(memory[i], MEMORY, layout, LAYOUT, trace, length, room[i], ROOM), i);
}

static void call_judge(int i)
{
    accepted(all[i].judge(file, length, memory[i], MEMORY, room[i], ROOM), i);
}

// ---- their inputs, by size

static void of_bytes(size_t bytes)
{
    length = bytes;
}

static void of_region(size_t bytes)
{
    make_layout(layout, bytes);
    for (int i = 0; i < BOARDS; i++)
        make_board(memory[i], mailbox);
}

static void of_trace(steps_function *kind, size_t steps)
{
    reseed();
    make_layout(layout, 8192);
    kind(trace, steps);
    length = STEP * steps;
}

static void trace_reading(size_t steps) { of_trace(reading, steps); }
static void trace_working(size_t steps) { of_trace(working, steps); }
static void trace_visiting(size_t steps) { of_trace(visiting, steps); }
static void trace_wild(size_t steps) { of_trace(wild, steps); }

static void of_file(steps_function *kind, size_t steps)
{
    of_trace(kind, steps);
    length = make_file(file, segment, 0, trace, STEP * steps);
}

static void file_reading(size_t steps) { of_file(reading, steps); }
static void file_working(size_t steps) { of_file(working, steps); }
static void file_visiting(size_t steps) { of_file(visiting, steps); }
static void file_wild(size_t steps) { of_file(wild, steps); }

static void file_storing(size_t steps)
{
    reseed();
    length = make_file(file, segment, largest_segment(segment), trace, STEP * steps);
}

// ---- the table of ratios

static const struct {
    const char *name;
    void (*call)(int);
    void (*prepare)(size_t);
    size_t size;
    int count; // the first so many implementations have it
} cases[] = {
    {"hash of 64 B", call_hash, of_bytes, 64, COUNT},
    {"hash of 1 KiB", call_hash, of_bytes, 1024, COUNT},
    {"hash of 64 KiB", call_hash, of_bytes, 65536, COUNT},
    {"HMAC over 8 KiB", call_mac, of_bytes, 8192, COUNT},
    {"attest, AR of 4 KiB", call_attest, of_region, 4096, BOARDS},
    {"attest, AR of 32 KiB", call_attest, of_region, 32768, BOARDS},
    {"trace of 4,096 steps: CPU and DMA read", call_trace, trace_reading, MOST_STEPS, BOARDS},
    {"trace: reads and writes outside CR", call_trace, trace_working, MOST_STEPS, BOARDS},
    {"trace: visits to CR", call_trace, trace_visiting, MOST_STEPS, BOARDS},
    {"trace: anything", call_trace, trace_wild, MOST_STEPS, BOARDS},
    {"judge of 49,152 B: CPU and DMA read", call_judge, file_reading, FILE_STEPS, BOARDS},
    {"judge: reads and writes outside CR", call_judge, file_working, FILE_STEPS, BOARDS},
    {"judge: visits to CR", call_judge, file_visiting, FILE_STEPS, BOARDS},
    {"judge: anything", call_judge, file_wild, FILE_STEPS, BOARDS},
    {"judge: one large segment, no step", call_judge, file_storing, 0, BOARDS},
};
enum { CASES = sizeof cases / sizeof *cases };

static void print_ratios(int c)
{
    struct timed time[COUNT];
    bool part[COUNT];
    for (int i = 0; i < COUNT; i++)
        part[i] = i < cases[c].count;
    cases[c].prepare(cases[c].size);
    time_all(cases[c].call, part, COUNT, time);
    printf("| %s | %.2f |", cases[c].name, 1e6 * time[0].best);
    for (int i = 1; i < COUNT; i++)
        if (part[i])
            printf(" %.2f |", time[i].best / time[0].best);
        else
            printf(" |");
    printf("\n");
    for (int i = 0; i < COUNT; i++)
        if (part[i] && time[i].median / time[i].best > spread)
            spread = time[i].median / time[i].best;
}

static void print_table(void)
{
    printf("| what | ours, µs |");
    for (int i = 1; i < COUNT; i++)
        printf(" %s |", all[i].name);
    printf("\n|---|---:|");
    for (int i = 1; i < COUNT; i++)
        printf("---:|");
    printf("\n");
    for (int c = 0; c < CASES; c++)
        print_ratios(c);
    printf("\nThe best of %d rounds each; the median round was at most %.0f %% slower.\n", ROUNDS, 100 * (spread - 1));
}

// ---- time against size

static const struct {
    const char *name, *unit;
    void (*call)(int);
    void (*prepare)(size_t);
    size_t size[SIZES]; // ends with 0 if there are fewer
} lines[] = {
    {"hash", "byte", call_hash, of_bytes, {1024, 2048, 4096, 8192, 16384, 32768, 65536, 131072}},
    {"attest, by AR", "byte", call_attest, of_region, {1024, 2048, 4096, 8192, 16384, 32768}},
    {"trace: CPU and DMA read", "step", call_trace, trace_reading, {128, 256, 512, 1024, 2048, 4096}},
    {"trace: anything", "step", call_trace, trace_wild, {128, 256, 512, 1024, 2048, 4096}},
};
enum { LINES = sizeof lines / sizeof *lines };

static void print_line(int n)
{
    double size[SIZES], time[SIZES];
    const bool ours[1] = {true};
    int count = 0;
    for (; count < SIZES && lines[n].size[count] != 0; count++) {
        struct timed t;
        lines[n].prepare(lines[n].size[count]);
        time_all(lines[n].call, ours, 1, &t);
        size[count] = (double)lines[n].size[count];
        time[count] = t.best;
    }
    struct line l = fit(size, time, count);
    printf("| %s | %.0f to %.0f %ss | %.3f ns | %.2f µs | %.1f %% |\n", lines[n].name, size[0], size[count - 1], lines[n].unit,
           1e9 * l.each, 1e6 * l.fixed, 100 * l.departure);
}

static void print_lines(void)
{
    printf("\n| ours | sizes | each byte or step | fixed part | farthest from the line |\n|---|---|---:|---:|---:|\n");
    for (int n = 0; n < LINES; n++)
        print_line(n);
}

int main(void)
{
    pin_to_one_cpu();
    agree_on_all();
    reseed();
    fill_random(message, LONGEST);
    fill_random(key, KEY);
    print_table();
    print_lines();
    return 0;
}
