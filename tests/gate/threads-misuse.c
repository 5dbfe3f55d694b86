/* Each way to misuse the calls for threads, and what a host may rely on about the lock: tests/gate/threads-c runs it. */
#define _DEFAULT_SOURCE
#include <pthread.h>
#include <stdatomic.h>
#include <stdio.h>
#include <string.h>
#include <sys/mman.h>
#include "tempolemon_threads.h"

static const tempolemon_sizes SIZES = {.frames = 64, .cpus = 3, .batch = 4, .high = 16, .stock = 8};
static int failures;
static tempolemon_result result;

static void is(const char *what, unsigned long given, unsigned long wanted) {
    if (given == wanted) return;
    printf("%s: %lu in place of %lu\n", what, given, wanted);
    failures++;
}

/* Each typed call on the CPU handle returns this. */
static void all_are(const char *what, tempolemon_cpu *cpu, uint8_t wanted) {
    char text[300];
    size_t written;
    const uint8_t given[] = {
        tempolemon_on_get(cpu, 0, &result), tempolemon_on_put(cpu, 0, &result),
        tempolemon_on_alloc(cpu, 0, 0, &result), tempolemon_on_alloc(cpu, 0, 1, &result),
        tempolemon_on_alloc_dirty(cpu, 0, 0, &result), tempolemon_on_alloc_pinned(cpu, 0, 1, &result),
        tempolemon_on_release(cpu, 0, &result), tempolemon_on_mkdir(cpu, "/x", 2, &result),
        tempolemon_on_rmdir(cpu, "/x", 2, &result), tempolemon_on_write(cpu, "/x", 2, "memory.max", 10, "1", 1, &result),
        tempolemon_on_read(cpu, "/x", 2, "memory.max", 10, text, sizeof text, &result),
        tempolemon_on_touch(cpu, 0, &result), tempolemon_on_dirty(cpu, 0, &result), tempolemon_on_clean(cpu, 0, &result),
        tempolemon_on_owner(cpu, 0, &result), tempolemon_on_settle(cpu, &result),
        tempolemon_on_usage(cpu, 0, &result), tempolemon_on_peak(cpu, 0, &result), tempolemon_on_max(cpu, 0, &result),
        tempolemon_on_high(cpu, 0, &result), tempolemon_on_set_max(cpu, 0, 1, &result),
        tempolemon_on_set_high(cpu, 0, 1, &result), tempolemon_on_set_low(cpu, 0, 1, &result),
        tempolemon_on_set_min(cpu, 0, 1, &result), tempolemon_on_reclaim(cpu, 0, 1, &result),
        tempolemon_on_show(cpu, text, sizeof text, &written), tempolemon_on_blocks(cpu, text, sizeof text, &written),
        tempolemon_on_stock(cpu, text, sizeof text, &written), tempolemon_on_units(cpu, "/", 1, text, sizeof text, &written),
        tempolemon_return(cpu),
    };
    for (size_t at = 0; at < sizeof given; at++) is(what, given[at], wanted);
}

/* What the zone and the CPU show. */
static void look(tempolemon_cpu *cpu, char text[4000]) {
    size_t shown = 0, stock = 0;
    is("show", tempolemon_on_show(cpu, text, 3000, &shown), TEMPOLEMON_DONE);
    is("stock", tempolemon_on_stock(cpu, text + shown, 900, &stock), TEMPOLEMON_DONE);
    text[shown + stock] = 0;
}

/* Handles with nothing behind them, and numbers that aren't there. */
static void refusals(void) {
    tempolemon_zone zone = {0}, none = {0};
    static tempolemon_cpu one, two, copy, empty;
    tempolemon_report report = {.held = 77};
    tempolemon_sizes low_high = SIZES;
    char text[300], before[4000], after[4000];
    size_t written;
    low_high.high = 3;

    is("an end of none", tempolemon_zone_end(&none, &report), TEMPOLEMON_NOT_LIVE);
    is("a take of none", tempolemon_take(&none, 1, &one), TEMPOLEMON_NOT_LIVE);
    all_are("a call of none", &one, TEMPOLEMON_NOT_LIVE);
    const uint32_t next = TEMPOLEMON_VERSION + 1;
    is("a boot of the next version", tempolemon_zone_boot_as(next, &SIZES, &zone), TEMPOLEMON_BAD_VERSION);
    is("one of version 0", tempolemon_zone_boot_as(0, &low_high, &zone), TEMPOLEMON_BAD_VERSION);
    is("its handle", zone.raw || zone.is_live, false);
    void *page = mmap(NULL, 4096, PROT_NONE, MAP_PRIVATE | MAP_ANONYMOUS, -1, 0);
    is("a page without access", page == MAP_FAILED, false);
    is("a boot that may read nothing", tempolemon_zone_boot_as(0, page, page), TEMPOLEMON_BAD_VERSION);
    munmap(page, 4096);
    is("a low high", tempolemon_zone_boot(&low_high, &zone), TEMPOLEMON_BAD_CONFIG);
    tempolemon_sizes flagged = SIZES;
    flagged.no_kill = 2;
    is("a flag of two", tempolemon_zone_boot(&flagged, &zone), TEMPOLEMON_BAD_CONFIG);
    tempolemon_sizes many_groups = SIZES;
    many_groups.groups = 1025;
    is("1,025 groups", tempolemon_zone_boot(&many_groups, &zone), TEMPOLEMON_BAD_CONFIG);
    is("a boot", tempolemon_zone_boot(&SIZES, &zone), TEMPOLEMON_DONE);
    is("a second boot", tempolemon_zone_boot(&SIZES, &zone), TEMPOLEMON_IS_LIVE);
    is("one of the next version", tempolemon_zone_boot_as(next, &SIZES, &zone), TEMPOLEMON_BAD_VERSION);
    is("CPU 0", tempolemon_take(&zone, 0, &one), TEMPOLEMON_BAD_CPU);
    is("CPU 4", tempolemon_take(&zone, 4, &one), TEMPOLEMON_BAD_CPU);
    is("CPU 2^32 - 1", tempolemon_take(&zone, UINT32_MAX, &one), TEMPOLEMON_BAD_CPU);
    is("CPU 1", tempolemon_take(&zone, 1, &one), TEMPOLEMON_DONE);
    look(&one, before);
    is("CPU 1 again", tempolemon_take(&zone, 1, &two), TEMPOLEMON_CPU_OUT);
    is("CPU 2 for CPU 1's handle", tempolemon_take(&zone, 2, &one), TEMPOLEMON_IS_LIVE);
    all_are("a call of the second handle", &two, TEMPOLEMON_NOT_LIVE);
    is("an end with a CPU out", tempolemon_zone_end(&zone, &report), TEMPOLEMON_CPUS_OUT);
    is("its report", report.held, 77);
    uint64_t out = 7;
    is("the CPUs out of none", tempolemon_cpus_out(&none, &out), TEMPOLEMON_NOT_LIVE);
    is("are none", out, 0);
    is("CPU 3", tempolemon_take(&zone, 3, &two), TEMPOLEMON_DONE);
    is("the CPUs that are out", tempolemon_cpus_out(&zone, &out), TEMPOLEMON_DONE);
    is("are 1 and 3", out, 5);
    is("the return of CPU 3", tempolemon_return(&two), TEMPOLEMON_DONE);

    is("frame 64", tempolemon_on_get(&one, 64, &result), TEMPOLEMON_BAD_FRAME);
    is("frame 2^32 - 1", tempolemon_on_release(&one, UINT32_MAX, &result), TEMPOLEMON_BAD_FRAME);
    is("owner of frame 64", tempolemon_on_owner(&one, 64, &result), TEMPOLEMON_BAD_FRAME);
    is("group 1", tempolemon_on_alloc(&one, 1, 0, &result), TEMPOLEMON_BAD_GROUP);
    is("group 63, a block", tempolemon_on_alloc(&one, 63, 2, &result), TEMPOLEMON_BAD_GROUP);
    is("group 64", tempolemon_on_alloc(&one, 64, 0, &result), TEMPOLEMON_BAD_GROUP);
    is("group 1, dirty", tempolemon_on_alloc_dirty(&one, 1, 0, &result), TEMPOLEMON_BAD_GROUP);
    is("group 64, dirty", tempolemon_on_alloc_dirty(&one, 64, 2, &result), TEMPOLEMON_BAD_GROUP);
    is("group 1, pinned", tempolemon_on_alloc_pinned(&one, 1, 1, &result), TEMPOLEMON_BAD_GROUP);
    is("the usage of group 1", tempolemon_on_usage(&one, 1, &result), TEMPOLEMON_BAD_GROUP);
    is("the limit of group 64", tempolemon_on_max(&one, 64, &result), TEMPOLEMON_BAD_GROUP);
    is("a limit of group 63", tempolemon_on_set_max(&one, 63, 1, &result), TEMPOLEMON_BAD_GROUP);
    is("a limit of the root", tempolemon_on_set_max(&one, 0, 1, &result), TEMPOLEMON_NO_FILE);
    is("a put without a pin", tempolemon_on_put(&one, 0, &result), TEMPOLEMON_NOT_PINNED);
    is("its kind", result.kind, TEMPOLEMON_REFUSED);
    is("a short buffer", tempolemon_on_read(&one, "/a", 2, "memory.max", 10, text, 159, &result), TEMPOLEMON_SMALL_BUFFER);
    is("units of no group", tempolemon_on_units(&one, "/a", 2, text, sizeof text, &written), TEMPOLEMON_NO_GROUP);
    look(&one, after);
    is("what these calls changed", (unsigned long)strcmp(before, after), 0);

    is("mkdir", tempolemon_on_mkdir(&one, "/a", 2, &result), TEMPOLEMON_DONE);
    const uint32_t group = (uint32_t)result.number;
    is("a read of memory.reclaim", tempolemon_on_read(&one, "/a", 2, "memory.reclaim", 14, text, 256, &result),
       TEMPOLEMON_WRITE_ONLY);
    is("its kind", result.kind, TEMPOLEMON_REFUSED);
    is("a short text", tempolemon_on_show(&one, text, 3, &written), TEMPOLEMON_SMALL_BUFFER);
    const size_t needed = written;
    is("the text", tempolemon_on_show(&one, text, needed, &written), TEMPOLEMON_DONE);
    is("its length", written, needed);

    /* pages by a group's number */
    is("a limit", tempolemon_on_set_max(&one, group, 9, &result), TEMPOLEMON_DONE);
    is("memory.high", tempolemon_on_set_high(&one, group, (uint64_t)1 << 32, &result), TEMPOLEMON_DONE);
    is("memory.low", tempolemon_on_set_low(&one, group, 2, &result), TEMPOLEMON_DONE);
    is("its text", tempolemon_on_read(&one, "/a", 2, "memory.low", 10, text, 256, &result), TEMPOLEMON_DONE);
    is("is in bytes", (unsigned long)memcmp(text, "8192\n", 5), 0);
    is("memory.min", tempolemon_on_set_min(&one, group, 3, &result), TEMPOLEMON_DONE);
    is("its text", tempolemon_on_read(&one, "/a", 2, "memory.min", 10, text, 256, &result), TEMPOLEMON_DONE);
    is("is in bytes", (unsigned long)memcmp(text, "12288\n", 6), 0);
    is("no memory.low", tempolemon_on_set_low(&one, group, 0, &result), TEMPOLEMON_DONE);
    is("no memory.min", tempolemon_on_set_min(&one, group, 0, &result), TEMPOLEMON_DONE);
    is("the limit", tempolemon_on_max(&one, group, &result), TEMPOLEMON_DONE);
    is("its pages", result.number + 100 * result.kind, 9 + 100 * TEMPOLEMON_PAGES);
    is("its text", tempolemon_on_read(&one, "/a", 2, "memory.max", 10, text, 256, &result), TEMPOLEMON_DONE);
    is("is the same", (unsigned long)memcmp(text, "36864\n", 6), 0);
    is("no memory.high", tempolemon_on_high(&one, group, &result), TEMPOLEMON_DONE);
    is("its kind", result.kind, TEMPOLEMON_NO_LIMIT);
    is("an allocation", tempolemon_on_alloc_dirty(&one, group, 3, &result), TEMPOLEMON_DONE);
    const uint32_t eight = (uint32_t)result.number;
    is("the usage", tempolemon_on_usage(&one, group, &result), TEMPOLEMON_DONE);
    is("its pages", result.number, 8);
    is("the usage of the root", tempolemon_on_usage(&one, 0, &result), TEMPOLEMON_DONE);
    is("its pages", result.number, 8);
    is("a reclaim of dirty pages", tempolemon_on_reclaim(&one, group, 1, &result), TEMPOLEMON_AGAIN);
    is("its clean", tempolemon_on_clean(&one, eight, &result), TEMPOLEMON_DONE);
    is("a reclaim", tempolemon_on_reclaim(&one, group, 1, &result), TEMPOLEMON_DONE);
    is("the usage", tempolemon_on_usage(&one, group, &result), TEMPOLEMON_DONE);
    is("is none", result.number, 0);
    is("the peak", tempolemon_on_peak(&one, group, &result), TEMPOLEMON_DONE);
    is("its pages", result.number, 8);
    is("no limit", tempolemon_on_set_max(&one, group, UINT64_MAX, &result), TEMPOLEMON_DONE);

    /* a unit of any order is kept and dirty at once */
    for (uint32_t order = 0; order < 3; order++) {
        char unit[40];
        is("alloc_dirty", tempolemon_on_alloc_dirty(&one, group, order, &result), TEMPOLEMON_DONE);
        is("its kind", result.kind, TEMPOLEMON_FRAME);
        const uint32_t head = (uint32_t)result.number;
        const size_t length = (size_t)snprintf(unit, sizeof unit, "%u %u inactive dirty\n", head, order);
        is("its unit", tempolemon_on_units(&one, "/a", 2, text, sizeof text, &written), TEMPOLEMON_DONE);
        is("which is dirty", written != length || memcmp(text, unit, length) != 0, 0);
        is("its release", tempolemon_on_release(&one, head, &result), TEMPOLEMON_DONE);
    }
    is("order 11, dirty", tempolemon_on_alloc_dirty(&one, group, 11, &result), TEMPOLEMON_BAD_ORDER);

    /* a block that is pinned at once isn't reclaimed; with 256 pins there are no more */
    uint32_t pinned[2];
    for (int at = 0; at < 2; at++) {
        is("alloc_pinned", tempolemon_on_alloc_pinned(&one, group, 1, &result), TEMPOLEMON_DONE);
        is("its kind", result.kind, TEMPOLEMON_FRAME);
        pinned[at] = (uint32_t)result.number;
    }
    is("a reclaim", tempolemon_on_reclaim(&one, group, 64, &result), TEMPOLEMON_AGAIN);
    is("order 0, pinned", tempolemon_on_alloc_pinned(&one, group, 0, &result), TEMPOLEMON_BAD_ORDER);
    is("order 11, pinned", tempolemon_on_alloc_pinned(&one, group, 11, &result), TEMPOLEMON_BAD_ORDER);
    for (int pins = 2; pins < 256; pins++) {
        is("get", tempolemon_on_get(&one, pinned[pins % 2], &result), TEMPOLEMON_DONE);
        is("held", result.kind, TEMPOLEMON_HELD);
    }
    look(&one, before);
    is("pin 257", tempolemon_on_alloc_pinned(&one, group, 1, &result), TEMPOLEMON_PINS_FULL);
    is("its kind", result.kind, TEMPOLEMON_REFUSED);
    is("pin 257, order 0", tempolemon_on_alloc_pinned(&one, group, 0, &result), TEMPOLEMON_PINS_FULL);
    look(&one, after);
    is("what these calls changed", (unsigned long)strcmp(before, after), 0);
    for (int pins = 0; pins < 256; pins++) {
        is("put", tempolemon_on_put(&one, pinned[pins % 2], &result), TEMPOLEMON_DONE);
        is("left", result.kind, TEMPOLEMON_LEFT);
    }
    for (int at = 0; at < 2; at++) is("release", tempolemon_on_release(&one, pinned[at], &result), TEMPOLEMON_DONE);

    /* a returned CPU keeps its pins: whoever takes it next puts them */
    is("alloc", tempolemon_on_alloc(&one, group, 0, &result), TEMPOLEMON_DONE);
    const uint32_t frame = (uint32_t)result.number;
    is("settle", tempolemon_on_settle(&one, &result), TEMPOLEMON_DONE);
    is("get", tempolemon_on_get(&one, frame, &result), TEMPOLEMON_DONE);
    is("held", result.kind, TEMPOLEMON_HELD);
    is("return", tempolemon_return(&one), TEMPOLEMON_DONE);
    is("return again", tempolemon_return(&one), TEMPOLEMON_NOT_LIVE);
    all_are("a call after the return", &one, TEMPOLEMON_NOT_LIVE);
    is("CPU 1 by the second handle", tempolemon_take(&zone, 1, &two), TEMPOLEMON_DONE);
    is("its put", tempolemon_on_put(&two, frame, &result), TEMPOLEMON_DONE);
    is("is left", result.kind, TEMPOLEMON_LEFT);
    is("its get", tempolemon_on_get(&two, frame, &result), TEMPOLEMON_DONE);

#ifndef NDEBUG
    copy = two;
    all_are("a call of a copy", &copy, TEMPOLEMON_COPIED);
    result = (tempolemon_result){7, TEMPOLEMON_FRAME};
    is("an alloc of a copy", tempolemon_on_alloc(&copy, group, 0, &result), TEMPOLEMON_COPIED);
    is("gives nothing", result.number + result.kind, TEMPOLEMON_NOTHING);
    two.in_use = 1;
    all_are("a call during a call", &two, TEMPOLEMON_IN_USE);
    result = (tempolemon_result){7, TEMPOLEMON_FRAME};
    written = 7;
    is("a read during a call", tempolemon_on_read(&two, "/a", 2, "memory.max", 10, text, 256, &result), TEMPOLEMON_IN_USE);
    is("gives nothing", result.number + result.kind, TEMPOLEMON_NOTHING);
    is("a show during a call", tempolemon_on_show(&two, text, sizeof text, &written), TEMPOLEMON_IN_USE);
    is("writes nothing", written, 0);
    two.in_use = 0;
#else
    (void)copy;
#endif
    all_are("an empty handle", &empty, TEMPOLEMON_NOT_LIVE);
    is("the last return", tempolemon_return(&two), TEMPOLEMON_DONE);
    is("an end", tempolemon_zone_end(&zone, &report), TEMPOLEMON_DONE);
    is("its pins", report.held, 1);
    is("its frames", report.free + report.charged, report.frames);
    is("an end again", tempolemon_zone_end(&zone, &report), TEMPOLEMON_NOT_LIVE);
    is("a take after it", tempolemon_take(&zone, 1, &one), TEMPOLEMON_NOT_LIVE);
}

/* The lock is free after each call, so another CPU's try is never BUSY. */
static void free_lock(void) {
    tempolemon_zone zone = {0};
    static tempolemon_cpu one, two;
    tempolemon_report report;
    char text[4000];
    size_t written;
    is("boot", tempolemon_zone_boot(&SIZES, &zone), TEMPOLEMON_DONE);
    is("take", tempolemon_take(&zone, 1, &one), TEMPOLEMON_DONE);
    is("take", tempolemon_take(&zone, 2, &two), TEMPOLEMON_DONE);
#define FREE_AFTER(call)                                                                                              \
    do {                                                                                                               \
        is(#call, (call) == TEMPOLEMON_BUSY, false);                                                                   \
        is(#call, tempolemon_try_settle(&two.part, &result), TEMPOLEMON_DONE);                                         \
    } while (0)
    for (int round = 0; round < 3; round++) {
        FREE_AFTER(tempolemon_try_mkdir(&one.part, "/a", 2, &result));
        FREE_AFTER(tempolemon_try_alloc(&one.part, 1, 0, &result));
        const uint32_t frame = (uint32_t)result.number;
        FREE_AFTER(tempolemon_try_alloc(&one.part, 1, 2, &result));
        FREE_AFTER(tempolemon_try_alloc(&one.part, 40, 2, &result));
        FREE_AFTER(tempolemon_try_alloc(&one.part, 40, 0, &result));
        FREE_AFTER(tempolemon_try_alloc_dirty(&one.part, 1, 0, &result));
        FREE_AFTER(tempolemon_try_alloc_dirty(&one.part, 40, 0, &result));
        FREE_AFTER(tempolemon_try_alloc_pinned(&one.part, 1, 1, &result));
        FREE_AFTER(tempolemon_try_alloc_pinned(&one.part, 40, 1, &result));
        FREE_AFTER(tempolemon_try_usage(&one.part, 1, &result));
        FREE_AFTER(tempolemon_try_usage(&one.part, 40, &result));
        FREE_AFTER(tempolemon_try_set_max(&one.part, 1, 16, &result));
        FREE_AFTER(tempolemon_try_set_max(&one.part, 40, 16, &result));
        FREE_AFTER(tempolemon_try_write(&one.part, "/a", 2, "memory.max", 10,
                                        "64K", 3, &result));
        FREE_AFTER(tempolemon_try_read(&one.part, "/a", 2, "memory.max", 10,
                                       text, 256, &result));
        FREE_AFTER(tempolemon_try_read(&one.part, "/b", 2, "memory.max", 10,
                                       text, 256, &result));
        FREE_AFTER(tempolemon_try_touch(&one.part, frame, &result));
        FREE_AFTER(tempolemon_try_dirty(&one.part, frame, &result));
        FREE_AFTER(tempolemon_try_clean(&one.part, frame, &result));
        FREE_AFTER(tempolemon_try_owner(&one.part, frame, &result));
        FREE_AFTER(tempolemon_cpu_get(&one.part, frame, &result));
        FREE_AFTER(tempolemon_cpu_put(&one.part, frame, &result));
        FREE_AFTER(tempolemon_try_release(&one.part, frame, &result));
        FREE_AFTER(tempolemon_try_settle(&one.part, &result));
        FREE_AFTER(tempolemon_try_show(&one.part, text, sizeof text, &written));
        FREE_AFTER(tempolemon_try_blocks(&one.part, text, sizeof text, &written));
        FREE_AFTER(tempolemon_try_stock(&one.part, text, sizeof text, &written));
        FREE_AFTER(tempolemon_try_units(&one.part, "/a", 2, text, sizeof text, &written));
        FREE_AFTER(tempolemon_try_units(&one.part, "/b", 2, text, sizeof text, &written));
        FREE_AFTER(tempolemon_try_rmdir(&one.part, "/b", 2, &result));
        FREE_AFTER(tempolemon_zone_end(&zone, &report));
        FREE_AFTER(tempolemon_try_return(&one.part));
        FREE_AFTER(tempolemon_try_take(&zone, 9, &one.part));
        FREE_AFTER(tempolemon_try_take(&zone, 2, &one.part));
        FREE_AFTER(tempolemon_try_take(&zone, 1, &one.part));
    }
    is("return", tempolemon_return(&one), TEMPOLEMON_DONE);
    is("return", tempolemon_return(&two), TEMPOLEMON_DONE);
    is("end", tempolemon_zone_end(&zone, &report), TEMPOLEMON_DONE);
}

static tempolemon_zone shared;
static tempolemon_cpu holders[2];
static _Atomic bool is_over;
static pthread_mutex_t turn = PTHREAD_MUTEX_INITIALIZER;

/* Holds the lock for long: the text of a large zone. */
static void *hold(void *at) {
    static char text[1000];
    tempolemon_cpu *cpu = at;
    size_t written;
    while (!atomic_load(&is_over))
        is("a long text", tempolemon_on_show(cpu, text, sizeof text, &written), TEMPOLEMON_DONE);
    is("return of the holder", tempolemon_return(cpu), TEMPOLEMON_DONE);
    return NULL;
}

/* While another thread holds the lock, a try is BUSY and a get answers at once; an end does nothing. */
static void busy_lock(void) {
    const tempolemon_sizes large = {.frames = 1 << 18, .cpus = 2, .batch = 32, .high = 128, .stock = 32};
    tempolemon_report report;
    pthread_t thread;
    unsigned long busy = 0;
    is("boot", tempolemon_zone_boot(&large, &shared), TEMPOLEMON_DONE);
    for (uint32_t at = 0; at < 2; at++) is("take", tempolemon_take(&shared, at + 1, &holders[at]), TEMPOLEMON_DONE);
    is("mkdir", tempolemon_on_mkdir(&holders[1], "/a", 2, &result), TEMPOLEMON_DONE);
    const uint32_t group = (uint32_t)result.number;
    is("alloc", tempolemon_on_alloc(&holders[1], group, 0, &result), TEMPOLEMON_DONE);
    const uint32_t frame = (uint32_t)result.number;
    is("settle", tempolemon_on_settle(&holders[1], &result), TEMPOLEMON_DONE);
    if (pthread_create(&thread, NULL, hold, &holders[0])) return;
    for (unsigned long tries = 0; busy < 20 && tries < 2000000000ul; tries++) {
        tempolemon_result given;
        if (tempolemon_try_settle(&holders[1].part, &given) != TEMPOLEMON_BUSY) continue;
        busy++;
        is("its kind", given.kind, TEMPOLEMON_NOTHING);
        is("a get meanwhile", tempolemon_cpu_get(&holders[1].part, frame, &given), TEMPOLEMON_DONE);
        is("a put meanwhile", tempolemon_cpu_put(&holders[1].part, frame, &given), TEMPOLEMON_DONE);
        is("an end meanwhile", tempolemon_zone_end(&shared, &report), TEMPOLEMON_CPUS_OUT);
    }
    is("tries that were busy", busy, 20);
    atomic_store(&is_over, true);
    pthread_join(thread, NULL);
    is("return", tempolemon_return(&holders[1]), TEMPOLEMON_DONE);
    is("end", tempolemon_zone_end(&shared, &report), TEMPOLEMON_DONE);
}

/* Takes the one CPU, uses it and returns it, in turn with other threads. */
static void *take_turns(void *at) {
    static tempolemon_cpu cpus[8];
    tempolemon_cpu *cpu = &cpus[*(int *)at];
    tempolemon_result given;
    for (int round = 0; round < 2000;) {
        pthread_mutex_lock(&turn); /* boot, take and end are made one at a time */
        const uint8_t status = tempolemon_take(&shared, 1, cpu);
        pthread_mutex_unlock(&turn);
        if (status == TEMPOLEMON_CPU_OUT) continue;
        is("a take in turn", status, TEMPOLEMON_DONE);
        is("a settle in turn", tempolemon_on_settle(cpu, &given), TEMPOLEMON_DONE);
        is("a return in turn", tempolemon_return(cpu), TEMPOLEMON_DONE);
        round++;
    }
    return NULL;
}

static void turns(void) {
    const tempolemon_sizes one = {.frames = 64, .cpus = 1, .batch = 4, .high = 16, .stock = 8};
    tempolemon_report report;
    pthread_t threads[8];
    int numbers[8];
    is("boot", tempolemon_zone_boot(&one, &shared), TEMPOLEMON_DONE);
    for (int at = 0; at < 8; at++) {
        numbers[at] = at;
        if (pthread_create(&threads[at], NULL, take_turns, &numbers[at])) return;
    }
    for (int at = 0; at < 8; at++) pthread_join(threads[at], NULL);
    is("end", tempolemon_zone_end(&shared, &report), TEMPOLEMON_DONE);
}

int main(void) {
    refusals();
    free_lock();
    busy_lock();
    turns();
    return failures ? 1 : 0;
}
