/* The seconds of one run of each of several programs, by processor time. They take turns, each run again and again for a twentieth of a second at least, seven times; the least time of each counts. */
#ifndef CLOCK_H
#define CLOCK_H

#include <time.h>

enum { TURNS = 7 };

static inline double now(void)
{
    struct timespec t;

    clock_gettime(CLOCK_PROCESS_CPUTIME_ID, &t);
    return t.tv_sec + t.tv_nsec * 1e-9;
}

/* Twice as many runs each time until they take long enough, so that the clock itself does not count. */
static inline double once(void (*run)(void))
{
    for (long runs = 1;; runs *= 2) {
        double start = now();

        for (long i = 0; i < runs; i++)
            run();
        double seconds = now() - start;
        if (seconds >= 0.05)
            return seconds / runs;
    }
}

static inline void take_turns(void (*const *runs)(void), int count, double *least)
{
    for (int k = 0; k < count; k++)
        least[k] = 1e9;
    for (int turn = 0; turn < TURNS; turn++)
        for (int k = 0; k < count; k++) {
            double t = once(runs[k]);

            least[k] = t < least[k] ? t : least[k];
        }
}

#endif
