// The time of one call: the implementations take turns, and each is told by its best and its median round.
#ifndef TIMING_H
#define TIMING_H
#define _GNU_SOURCE
#include <math.h>
#include <sched.h>
#include <stdbool.h>
#include <stdio.h>
#include <stdlib.h>
#include <time.h>

enum { ROUNDS = 100, MOST_TAKING_TURNS = 8 };
static const double SLICE = 0.002; // seconds: a turn is at least this long, and still much shorter than a time slice

struct timed {
    double best, median; // seconds a call
};

// Time against size as a line, and how far a measured time lies from it at most, as a part of the line's.
struct line {
    double each, fixed, departure;
};

// One CPU for all, so that no implementation is moved to a colder or slower one in the middle.
static void pin_to_one_cpu(void)
{
    cpu_set_t cpu;
    CPU_ZERO(&cpu);
    CPU_SET(sched_getcpu(), &cpu);
    if (sched_setaffinity(0, sizeof cpu, &cpu) != 0)
        fprintf(stderr, "not pinned to one CPU\n");
}

// CPU time: what other processes take of the machine meanwhile is not counted.
static double now(void)
{
    struct timespec t;
    clock_gettime(CLOCK_PROCESS_CPUTIME_ID, &t);
    return (double)t.tv_sec + 1e-9 * (double)t.tv_nsec;
}

static double turn(void (*call)(int), int i, long calls)
{
    double start = now();
    for (long c = 0; c < calls; c++)
        call(i);
    return now() - start;
}

static int ascending(const void *a, const void *b)
{
    double x = *(const double *)a, y = *(const double *)b;
    return (x > y) - (x < y);
}

// Times call(i) for each i below count that takes part.
static void time_all(void (*call)(int), const bool part[], int count, struct timed result[])
{
    static double time[MOST_TAKING_TURNS][ROUNDS];
    long calls[MOST_TAKING_TURNS] = {0};
    // How many calls fill a turn; finding it out also warms up code, caches and clock.
    for (int i = 0; i < count; i++)
        if (part[i])
            for (calls[i] = 1; turn(call, i, calls[i]) < SLICE; calls[i] *= 2)
                ;
    for (int r = 0; r < ROUNDS; r++)
        for (int i = 0; i < count; i++)
            if (part[i])
                time[i][r] = turn(call, i, calls[i]) / (double)calls[i];
    for (int i = 0; i < count; i++)
        if (part[i]) {
            qsort(time[i], ROUNDS, sizeof time[i][0], ascending);
            result[i] = (struct timed){time[i][0], time[i][ROUNDS / 2]};
        }
}

// The line whose departures, each as a part of the measured time, have the least sum of squares.
static struct line fit(const double size[], const double time[], int count)
{
    double w = 0, x = 0, xx = 0, y = 0, xy = 0;
    for (int i = 0; i < count; i++) {
        double weight = 1 / (time[i] * time[i]);
        w += weight;
        x += weight * size[i];
        xx += weight * size[i] * size[i];
        y += weight * time[i];
        xy += weight * size[i] * time[i];
    }
    struct line l = {(w * xy - x * y) / (w * xx - x * x), 0, 0};
    l.fixed = (y - l.each * x) / w;
    for (int i = 0; i < count; i++) {
        double departure = fabs(time[i] / (l.fixed + l.each * size[i]) - 1);
        if (departure > l.departure)
            l.departure = departure;
    }
    return l;
}

#endif
