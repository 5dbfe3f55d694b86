/* A pool of pages that threads share, as a server would have it: see docs/EMBED.md, "From C, with threads".
 *
 *     cc -O2 examples/host_threads.c -Iout/lib -Lout/lib -ltempolemon -lpthread -o host_threads && ./host_threads
 *
 * Each thread has a CPU of the zone and a group with a limit. Frame k is the page at base + 4096 * k. A thread allocates
 * pages, writes them, publishes some on a shelf that all threads read, and releases them; at times it fills its group.
 * Who reads a page holds a reference on it, so a page is never reused under a reader. The main thread lowers a limit
 * meanwhile, which may kill a group: then its units are gone, and others may get their frames. At the end no frame may be
 * missing.
 *
 * The words are the number of threads (4), the rounds of each (50,000) and a seed (1).
 */
#define _DEFAULT_SOURCE
#include <pthread.h>
#include <stdatomic.h>
#include <stdio.h>
#include <stdlib.h>
#include <string.h>
#include <sys/mman.h>
#include "tempolemon_threads.h"

/* The archive isn't instrumented, so the thread sanitizer has to be told what the references order: who put or released a
 * page is done with it before somebody is given it again. */
#if defined(__SANITIZE_THREAD__)
#include <sanitizer/tsan_interface.h>
#define LEAVES(page) __tsan_release(page)
#define GETS(page) __tsan_acquire(page)
#else
#define LEAVES(page) ((void)(page))
#define GETS(page) ((void)(page))
#endif

enum { MOST_THREADS = 32, FRAMES = 16384, PAGE = 4096, SHELF = 64, MOST_BLOCKS = 32 };
enum { GROUP = 1 << 16 }; /* on the shelf: GROUP times the group's number, and the frame */

typedef struct {
    tempolemon_cpu cpu;
    pthread_t thread;
    uint32_t group, seed;
    unsigned long served, refused, read, torn;
} worker;

static worker workers[MOST_THREADS];
static tempolemon_zone zone;
static tempolemon_cpu control; /* the main thread's CPU, for groups and limits */
static unsigned char *base;
static _Atomic uint32_t shelf[SHELF]; /* a published page of a group, or 0 */
static int rounds = 50000;

static void need(uint8_t status, const char *what) {
    if (status == TEMPOLEMON_DONE) return;
    fprintf(stderr, "%s: %s (%u)\n", what, tempolemon_status_text(status), status);
    exit(EXIT_FAILURE);
}

static unsigned char *page_of(uint32_t frame) { return base + (size_t)frame * PAGE; }

/* Pins a unit, if the frame has one. */
static bool pin(worker *me, uint32_t frame) {
    tempolemon_result result;
    uint8_t status;
    do status = tempolemon_on_get(&me->cpu, frame, &result);
    while (status == TEMPOLEMON_DONE && result.kind == TEMPOLEMON_RACED);
    return status == TEMPOLEMON_DONE && result.kind == TEMPOLEMON_HELD;
}

/* Reads a page that some thread published: pins it, looks whether it is still there, reads it, and puts it. A reference on
 * a page that isn't there any more is put at once. */
static void read_from(worker *me, _Atomic uint32_t *place) {
    tempolemon_result result;
    const uint32_t seen = atomic_load(place), frame = seen % GROUP;
    if (!seen || !pin(me, frame)) return;
    if (atomic_load(place) == seen) {
        const unsigned char *page = page_of(frame);
        if (page[0] != page[PAGE - 1]) me->torn++;
        me->read++;
    }
    LEAVES(page_of(frame));
    need(tempolemon_on_put(&me->cpu, frame, &result), "put");
}

/* Releases a unit of the group, unless it is gone: the group may have been killed, and the frame may be another group's by
 * now. So the unit is pinned first, and then asked whose it is. It is LEFT to its readers, if there are any. */
static void release(worker *me, uint32_t group, uint32_t frame) {
    tempolemon_result result;
    if (!pin(me, frame)) return;
    need(tempolemon_on_owner(&me->cpu, frame, &result), "owner");
    if (result.kind == TEMPOLEMON_CHARGED && result.number == group) {
        LEAVES(page_of(frame));
        const uint8_t status = tempolemon_on_release(&me->cpu, frame, &result);
        if (status != TEMPOLEMON_NOT_KEPT) need(status, "release");
    }
    need(tempolemon_on_put(&me->cpu, frame, &result), "put");
}

/* Publishes a page in place of the one before, which is released. Until it is noted as dirty it is a fresh frame of this
 * CPU, which nobody else can pin, reclaim or kill. A dirty page isn't reclaimed. */
static void publish(worker *me, _Atomic uint32_t *place, uint32_t frame) {
    tempolemon_result result;
    const uint8_t status = tempolemon_on_dirty(&me->cpu, frame, &result);
    if (status == TEMPOLEMON_NOT_KEPT) return; /* the group was killed */
    need(status, "dirty");
    const uint32_t before = atomic_exchange(place, GROUP * me->group + frame);
    if (before) release(me, before / GROUP, before % GROUP);
}

/* Fills the group with blocks of 16 pages until its limit has no room, and releases them. A block could be reclaimed as
 * soon as it is allocated, so it is dirty from the first. */
static void fill(worker *me) {
    tempolemon_result result;
    uint32_t blocks[MOST_BLOCKS];
    int count = 0;
    uint8_t status = TEMPOLEMON_DONE;
    while (count < MOST_BLOCKS &&
           (status = tempolemon_on_alloc_dirty(&me->cpu, me->group, 4, &result)) == TEMPOLEMON_DONE)
        blocks[count++] = (uint32_t)result.number;
    if (status == TEMPOLEMON_OVER_LIMIT) me->refused++;
    while (count) release(me, me->group, blocks[--count]);
}

static void *work(void *at) {
    worker *me = at;
    tempolemon_result result;
    for (int round = 0; round < rounds; round++) {
        me->seed = me->seed * 1664525u + 1013904223u;
        _Atomic uint32_t *place = &shelf[me->seed >> 26];
        read_from(me, place);
        /* a page of the thread's own group: most of these allocations take no lock */
        const uint8_t status = tempolemon_on_alloc(&me->cpu, me->group, 0, &result);
        if (status == TEMPOLEMON_OVER_LIMIT || status == TEMPOLEMON_NO_FRAMES || status == TEMPOLEMON_KILLED) {
            me->refused++;
            continue;
        }
        need(status, "alloc");
        const uint32_t frame = (uint32_t)result.number;
        GETS(page_of(frame));
        memset(page_of(frame), (int)me->group, PAGE);
        me->served++;
        if (round % 16 == 0) {
            publish(me, place, frame);
        } else {
            LEAVES(page_of(frame));
            need(tempolemon_on_release(&me->cpu, frame, &result), "release"); /* fresh: no lock */
        }
        if (round % 4096 == 0) fill(me);
    }
    need(tempolemon_return(&me->cpu), "return");
    return NULL;
}

static void begin(uint32_t number, uint32_t seed) {
    worker *me = &workers[number - 1];
    tempolemon_result result;
    char path[16];
    const size_t length = (size_t)snprintf(path, sizeof path, "/t%u", number);
    need(tempolemon_on_mkdir(&control, path, length, &result), "mkdir");
    me->group = (uint32_t)result.number;
    me->seed = seed * 7919u + number;
    need(tempolemon_on_write(&control, path, length, "memory.max", 10, "1M", 2, &result), "write");
    need(tempolemon_take(&zone, number, &me->cpu), "take");
    if (pthread_create(&me->thread, NULL, work, me)) exit(EXIT_FAILURE);
}

int main(int count, char **words) {
    const uint32_t threads = count > 1 ? (uint32_t)atoi(words[1]) : 4;
    if (count > 2) rounds = atoi(words[2]);
    const uint32_t seed = count > 3 ? (uint32_t)atoi(words[3]) : 1;
    if (threads < 1 || threads > MOST_THREADS) return EXIT_FAILURE;
    base = mmap(NULL, (size_t)FRAMES * PAGE, PROT_READ | PROT_WRITE, MAP_PRIVATE | MAP_ANONYMOUS | MAP_NORESERVE, -1, 0);
    if (base == MAP_FAILED) return EXIT_FAILURE;

    const tempolemon_sizes sizes = {.frames = FRAMES, .cpus = threads + 1, .batch = 32, .high = 128, .stock = 32};
    tempolemon_result result;
    tempolemon_report report;
    need(tempolemon_zone_boot(&sizes, &zone), "boot");
    need(tempolemon_take(&zone, threads + 1, &control), "take");
    for (uint32_t number = 1; number <= threads; number++) begin(number, seed);

    /* the administrator: lowers a limit, and reads what is used */
    char text[256];
    need(tempolemon_on_write(&control, "/t1", 3, "memory.max", 10, "512K", 4, &result), "write");
    need(tempolemon_on_read(&control, "/t1", 3, "memory.current", 14, text, sizeof text, &result), "read");
    if (tempolemon_zone_end(&zone, &report) != TEMPOLEMON_CPUS_OUT) return EXIT_FAILURE; /* nothing was done */

    unsigned long served = 0, refused = 0, read = 0, torn = 0;
    for (uint32_t at = 0; at < threads; at++) {
        pthread_join(workers[at].thread, NULL);
        served += workers[at].served;
        refused += workers[at].refused;
        read += workers[at].read;
        torn += workers[at].torn;
    }
    need(tempolemon_return(&control), "return");
    need(tempolemon_zone_end(&zone, &report), "end");
    fprintf(stderr, "%lu pages were allocated, %lu refused, %lu read\n", served, refused, read);
    printf("%u frames, %lu pages torn, %llu pins held\n", report.frames, torn, (unsigned long long)report.held);
    if (report.free + report.charged != report.frames || torn) return EXIT_FAILURE;
    return report.returns == report.last_puts + report.freezes + report.drops ? EXIT_SUCCESS : EXIT_FAILURE;
}
