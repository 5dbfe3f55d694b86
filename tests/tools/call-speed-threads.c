/* Times calls of the library by threads:
 *
 *     cc -O2 -DNDEBUG tests/tools/call-speed-threads.c -Iout/lib -Lout/lib -ltempolemon -lpthread -o call-speed-threads
 *     ./call-speed-threads [ROUNDS]
 *
 * Each row is the least of five runs. The first number is the time between begin and end over the rounds of all threads,
 * in ns; the second is the processor time of one thread over its own rounds, which other programs disturb less.
 * Another malloc is measured by LD_PRELOAD. Without NDEBUG the checks of the header are measured too.
 */
#define _GNU_SOURCE
#include <pthread.h>
#include <stdatomic.h>
#include <stdio.h>
#include <stdlib.h>
#include <string.h>
#include <time.h>
#include "tempolemon_threads.h"

enum { MOST_THREADS = 8, MANY = 64 };
typedef struct {
    tempolemon_cpu cpu;
    pthread_t thread;
    uint32_t number, group, frame, apart;
    double spent;
} worker;

static worker workers[MOST_THREADS];
static tempolemon_zone zone;
static tempolemon_handle old;
static tempolemon_cpu control;
static pthread_mutex_t mutex = PTHREAD_MUTEX_INITIALIZER;
static _Atomic int ready;
static _Atomic bool go;
static long rounds = 500000;
static void (*body)(worker *);

static void need(uint8_t status, const char *what) {
    if (status == TEMPOLEMON_DONE) return;
    fprintf(stderr, "%s: status %u\n", what, status);
    exit(EXIT_FAILURE);
}

static void get_and_put(worker *me) {
    tempolemon_result result;
    need(tempolemon_on_get(&me->cpu, me->frame, &result), "get");
    need(tempolemon_on_put(&me->cpu, me->frame, &result), "put");
}
static void get_and_put_apart(worker *me) {
    tempolemon_result result;
    need(tempolemon_on_get(&me->cpu, me->apart, &result), "get");
    need(tempolemon_on_put(&me->cpu, me->apart, &result), "put");
}
static void alloc_and_release(worker *me) {
    tempolemon_result result;
    need(tempolemon_on_alloc(&me->cpu, me->group, 0, &result), "alloc");
    need(tempolemon_on_release(&me->cpu, (uint32_t)result.number, &result), "release");
}
static void many_pages(worker *me) {
    tempolemon_result result;
    uint32_t frames[MANY];
    for (int at = 0; at < MANY; at++) {
        need(tempolemon_on_alloc(&me->cpu, me->group, 0, &result), "alloc");
        frames[at] = (uint32_t)result.number;
    }
    for (int at = 0; at < MANY; at++) need(tempolemon_on_release(&me->cpu, frames[at], &result), "release");
}
static void settle(worker *me) {
    tempolemon_result result;
    need(tempolemon_on_settle(&me->cpu, &result), "settle");
}
static void alloc_settle_and_release(worker *me) {
    tempolemon_result result;
    need(tempolemon_on_alloc(&me->cpu, me->group, 0, &result), "alloc");
    const uint32_t frame = (uint32_t)result.number;
    need(tempolemon_on_settle(&me->cpu, &result), "settle");
    need(tempolemon_on_release(&me->cpu, frame, &result), "release");
}
static void old_get_and_put(worker *me) {
    tempolemon_result result;
    pthread_mutex_lock(&mutex);
    need(tempolemon_get(&old, me->number, me->frame, &result), "get");
    pthread_mutex_unlock(&mutex);
    pthread_mutex_lock(&mutex);
    need(tempolemon_put(&old, me->number, me->frame, &result), "put");
    pthread_mutex_unlock(&mutex);
}
static void old_alloc_and_release(worker *me) {
    tempolemon_result result;
    pthread_mutex_lock(&mutex);
    need(tempolemon_alloc(&old, me->number, me->group, 0, &result), "alloc");
    pthread_mutex_unlock(&mutex);
    pthread_mutex_lock(&mutex);
    need(tempolemon_release(&old, me->number, (uint32_t)result.number, &result), "release");
    pthread_mutex_unlock(&mutex);
}
static void old_settle(worker *me) {
    tempolemon_result result;
    pthread_mutex_lock(&mutex);
    need(tempolemon_settle(&old, me->number, &result), "settle");
    pthread_mutex_unlock(&mutex);
}
static void bare_get_and_put(worker *me) {
    tempolemon_result result;
    need(tempolemon_get(&old, me->number, me->frame, &result), "get");
    need(tempolemon_put(&old, me->number, me->frame, &result), "put");
}
static void malloc_and_free(worker *me) {
    (void)me;
    void *volatile page = malloc(4096);
    free(page);
}
static void malloc_many(worker *me) {
    (void)me;
    void *pages[MANY];
    for (int at = 0; at < MANY; at++) pages[at] = malloc(4096);
    for (int at = 0; at < MANY; at++) {
        void *volatile page = pages[at];
        free(page);
    }
}

static double seconds(clockid_t clock) {
    struct timespec now;
    clock_gettime(clock, &now);
    return (double)now.tv_sec + (double)now.tv_nsec * 1e-9;
}

static void *run(void *at) {
    worker *me = at;
    atomic_fetch_add(&ready, 1);
    while (!atomic_load(&go)) TEMPOLEMON_PAUSE();
    const double from = seconds(CLOCK_THREAD_CPUTIME_ID);
    for (long round = 0; round < rounds; round++) body(me);
    me->spent = seconds(CLOCK_THREAD_CPUTIME_ID) - from;
    return NULL;
}

static void measure(const char *what, void (*round)(worker *), int threads, long count) {
    double least = 1e18, spent = 1e18;
    const long kept = rounds;
    body = round;
    rounds = count;
    for (int again = 0; again < 5; again++) {
        atomic_store(&ready, 0);
        atomic_store(&go, false);
        for (int at = 0; at < threads; at++)
            if (pthread_create(&workers[at].thread, NULL, run, &workers[at])) exit(EXIT_FAILURE);
        while (atomic_load(&ready) < threads) TEMPOLEMON_PAUSE();
        const double from = seconds(CLOCK_MONOTONIC);
        atomic_store(&go, true);
        double own = 0;
        for (int at = 0; at < threads; at++) {
            pthread_join(workers[at].thread, NULL);
            own += workers[at].spent / threads;
        }
        const double taken = seconds(CLOCK_MONOTONIC) - from;
        if (taken < least) least = taken;
        if (own < spent) spent = own;
    }
    printf("%-52s %d %8.1f %8.1f\n", what, threads, least / (double)count / threads * 1e9, spent / (double)count * 1e9);
    fflush(stdout);
    rounds = kept;
}

int main(int count, char **words) {
    const tempolemon_sizes sizes = {.frames = 16384, .cpus = MOST_THREADS + 1, .batch = 32, .high = 128, .stock = 64};
    tempolemon_report report;
    tempolemon_result result;
    if (count > 1) rounds = atol(words[1]);
    need(tempolemon_zone_boot(&sizes, &zone), "boot");
    need(tempolemon_boot(&sizes, &old), "boot");
    need(tempolemon_take(&zone, MOST_THREADS + 1, &control), "take");
    for (uint32_t at = 0; at < MOST_THREADS; at++) {
        worker *me = &workers[at];
        const char path[] = {'/', (char)('a' + at), 0};
        me->number = at + 1;
        need(tempolemon_take(&zone, at + 1, &me->cpu), "take");
        need(tempolemon_on_mkdir(&control, path, 2, &result), "mkdir");
        me->group = (uint32_t)result.number;
        need(tempolemon_mkdir(&old, 1, path, 2, &result), "mkdir");
        /* a frame of its own, for get and put; it has the same number behind the old handle */
        need(tempolemon_on_alloc(&me->cpu, me->group, 1, &result), "alloc");
        me->frame = (uint32_t)result.number;
        need(tempolemon_alloc(&old, me->number, me->group, 1, &result), "alloc");
        if (result.number != me->frame) return EXIT_FAILURE;
    }
    /* the words of those frames share a cache line; each of these heads 16 frames, whose words fill two lines */
    for (int at = 0; at < MOST_THREADS; at++) {
        need(tempolemon_on_alloc(&workers[at].cpu, workers[at].group, 4, &result), "alloc");
        workers[at].apart = (uint32_t)result.number;
    }
    puts("what                                              threads  ns/round  ns of a thread");
    for (int threads = 1; threads <= MOST_THREADS; threads *= 2) measure("get and put", get_and_put, threads, rounds);
    for (int threads = 1; threads <= MOST_THREADS; threads *= 2)
        measure("get and put, frames 16 apart", get_and_put_apart, threads, rounds);
    measure("get and put, old handle", bare_get_and_put, 1, rounds);
    for (int threads = 1; threads <= 4; threads *= 4)
        measure("get and put, old handle under a mutex", old_get_and_put, threads, rounds);
    for (int threads = 1; threads <= MOST_THREADS; threads *= 2)
        measure("alloc and release", alloc_and_release, threads, rounds);
    for (int threads = 1; threads <= 4; threads *= 4)
        measure("alloc and release, old handle under a mutex", old_alloc_and_release, threads, rounds);
    for (int threads = 1; threads <= 4; threads *= 2) measure("malloc and free", malloc_and_free, threads, rounds);
    for (int threads = 1; threads <= 4; threads *= 2) measure("64 pages", many_pages, threads, rounds / 64);
    for (int threads = 1; threads <= 4; threads *= 2) measure("64 mallocs", malloc_many, threads, rounds / 64);
    for (int threads = 1; threads <= MOST_THREADS; threads *= 2) measure("settle", settle, threads, rounds);
    for (int threads = 1; threads <= MOST_THREADS; threads *= 2)
        measure("alloc, settle and release", alloc_settle_and_release, threads, rounds);
    for (int threads = 1; threads <= MOST_THREADS; threads *= 2)
        measure("settle, old handle under a mutex", old_settle, threads, rounds);
    for (int at = 0; at < MOST_THREADS; at++) need(tempolemon_return(&workers[at].cpu), "return");
    need(tempolemon_return(&control), "return");
    need(tempolemon_zone_end(&zone, &report), "end");
    need(tempolemon_end(&old, &report), "end");
    return report.free + report.charged == report.frames ? EXIT_SUCCESS : EXIT_FAILURE;
}
