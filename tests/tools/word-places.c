/* Times the atomic operations of a get and a put over a table of words, with the word of a frame at several places:
 *
 *     cc -O2 tests/tools/word-places.c -lpthread -o word-places && ./word-places
 *
 * Each thread goes over the frames of its own list, which follow those of the thread before it. A number is the CPU time
 * of the slowest thread in ns a get and a put, the median of nine runs, by 1, 2 and 4 threads. It needs 4 idle CPUs.
 */
#define _GNU_SOURCE
#include <pthread.h>
#include <sched.h>
#include <stdatomic.h>
#include <stdint.h>
#include <stdio.h>
#include <stdlib.h>
#include <time.h>

enum { FRAMES = 50000, EIGHTH = FRAMES / 8, BITS = 16, ROUNDS = 600000, RUNS = 9, MOST_THREADS = 4 };
typedef enum { TODAY, BY_DIVISION, BY_SHIFTS, PLACES } places;
typedef struct {
    pthread_t thread;
    int number;
    double nanoseconds;
} worker;

static _Alignas(64) _Atomic uint64_t words[1 << BITS];
static places layout;
static uint32_t list;
static _Atomic int ready;
static _Atomic int go;

static uint32_t place(uint32_t frame) {
    if (layout == BY_DIVISION) return frame % EIGHTH * 8 + frame / EIGHTH;
    if (layout == BY_SHIFTS) return (frame << 3 | frame >> (BITS - 3)) & ((1 << BITS) - 1);
    return frame;
}

static double seconds(void) {
    struct timespec now;
    clock_gettime(CLOCK_THREAD_CPUTIME_ID, &now);
    return (double)now.tv_sec + (double)now.tv_nsec * 1e-9;
}

static void *run(void *at) {
    worker *me = at;
    cpu_set_t own;
    CPU_ZERO(&own);
    CPU_SET(me->number, &own);
    if (pthread_setaffinity_np(pthread_self(), sizeof own, &own)) exit(EXIT_FAILURE);
    atomic_fetch_add(&ready, 1);
    while (!atomic_load(&go)) __builtin_ia32_pause();
    const double from = seconds();
    for (uint32_t round = 0; round < ROUNDS; round++) {
        /* (volatile, so that a put finds its place again, as in the library) */
        volatile uint32_t frame = (uint32_t)me->number * list + round % list;
        uint64_t seen = atomic_load(&words[place(frame)]);
        atomic_compare_exchange_strong(&words[place(frame)], &seen, seen + 1);
        atomic_fetch_sub(&words[place(frame)], 1);
    }
    me->nanoseconds = (seconds() - from) / ROUNDS * 1e9;
    return NULL;
}

static int compare(const void *a, const void *b) {
    const double left = *(const double *)a, right = *(const double *)b;
    return (left > right) - (left < right);
}

static double measure(int threads) {
    double found[RUNS];
    for (int again = 0; again < RUNS; again++) {
        worker workers[MOST_THREADS];
        double most = 0;
        atomic_store(&ready, 0);
        atomic_store(&go, 0);
        for (int at = 0; at < threads; at++) {
            workers[at].number = at;
            if (pthread_create(&workers[at].thread, NULL, run, &workers[at])) exit(EXIT_FAILURE);
        }
        while (atomic_load(&ready) < threads) sched_yield();
        atomic_store(&go, 1);
        for (int at = 0; at < threads; at++) {
            pthread_join(workers[at].thread, NULL);
            if (workers[at].nanoseconds > most) most = workers[at].nanoseconds;
        }
        found[again] = most;
    }
    qsort(found, RUNS, sizeof *found, compare);
    return found[RUNS / 2];
}

int main(void) {
    static const char *const names[PLACES] = {"as today", "spread, by a division", "spread, by shifts"};
    for (layout = TODAY; layout < PLACES; layout++)
        for (int at = 0; at < 5; at++) {
            list = (const uint32_t[]){1, 4, 8, 31, 32}[at];
            printf("%-21s  lists of %2u frames: %4.0f", names[layout], list, measure(1));
            printf(" %4.0f", measure(2));
            printf(" %4.0f\n", measure(4));
        }
    return 0;
}
