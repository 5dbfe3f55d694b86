/* Random typed calls: tests/gate/threads-c runs it, and defines CONTROL_FILES.
 *
 *     threads-storm storm THREADS SECONDS SEED     by so many threads; at the end the audit has to add up
 *     threads-storm replay COMMANDS SEED           by one CPU handle; the script is written to standard output, and what
 *                                                  each call answered, in the program's words, to standard error
 */
#define _DEFAULT_SOURCE
#include <pthread.h>
#include <stdatomic.h>
#include <stdio.h>
#include <stdlib.h>
#include <string.h>
#include <time.h>
#include "tempolemon_threads.h"

enum { MOST_THREADS = 16, PATHS = 8, TEXT_ROOM = 100000 };
static const char *const PATH[PATHS] = {"/a", "/b", "/a/c", "/a/d", "/b/e", "/a/c/f", "/g", "/no/where"};
static const char *const FILES[] = {CONTROL_FILES "nothing"};
static const char *const VALUES[] = {"max", "1M", "800K", "400K", "200K", "1", "4096", "x"};
static const char *const AT_FRAME[] = {"release", "get", "put", "touch", "dirty", "clean", "owner"};
static const char *const REFUSALS[] = {"", "NoParent", "Exists", "BadName", "TreeFull", "TooDeep", "NoGroup", "HasChildren",
    "Busy", "PinsFull", "NoFile", "ReadOnly", "BadLimit", "BadNumber", "BadConfig", "OverLimit", "NoFrames", "Again", "Killed",
    "BadOrder", "NotKept", "NotPinned", "WriteOnly"};
static const char *const WORDS[] = {"", "ok", "group %llu", "frame %llu", "", "free", "cpu %llu", "", "marked", "active",
    "left %llu", "returned", "settled", "listed", "held", "zero", "raced", "full", "last"};

typedef struct {
    tempolemon_cpu cpu;
    pthread_t thread;
    uint64_t seed;
    unsigned long calls, refused;
    uint32_t recent[64], frames;
    bool is_dirty;
    char text[TEXT_ROOM];
    size_t written;
    char line[80];
} caller;

static caller callers[MOST_THREADS + 1];
static char group_paths[64][16]; /* of replay: the path of each group */
static tempolemon_zone zone;
static _Atomic bool is_over;
static bool is_replay;

static void need(uint8_t status, const char *what) {
    if (status == TEMPOLEMON_DONE) return;
    fprintf(stderr, "%s: status %u\n", what, status);
    exit(2);
}

static uint32_t below(caller *me, uint32_t count) {
    me->seed = me->seed * 6364136223846793005u + 1442695040888963407u;
    return (uint32_t)((me->seed >> 33) % count);
}

static uint8_t at_frame(caller *me, uint32_t call, uint32_t frame, tempolemon_result *out) {
    snprintf(me->line, sizeof me->line, "%s %u", AT_FRAME[call], frame);
    switch (call) {
    case 0: return tempolemon_on_release(&me->cpu, frame, out);
    case 1: return tempolemon_on_get(&me->cpu, frame, out);
    case 2: return tempolemon_on_put(&me->cpu, frame, out);
    case 3: return tempolemon_on_touch(&me->cpu, frame, out);
    case 4: return tempolemon_on_dirty(&me->cpu, frame, out);
    case 5: return tempolemon_on_clean(&me->cpu, frame, out);
    default: return tempolemon_on_owner(&me->cpu, frame, out);
    }
}

/* A group that may be there. */
static uint32_t some_group(caller *me) {
    if (!is_replay) return below(me, 9);
    for (int tries = 0; tries < 50; tries++) {
        const uint32_t group = 1 + below(me, 9);
        if (group_paths[group][0]) return group;
    }
    return 0;
}

/* A random call. Its line, without the CPU, is me->line; a text that it returned has me->written bytes. If it allocates a
 * dirty unit, a script notes that by a second line. */
static uint8_t call(caller *me, tempolemon_result *out) {
    const uint32_t pick = below(me, 100);
    const char *path = PATH[below(me, PATHS)], *file = FILES[below(me, sizeof FILES / sizeof *FILES)], *value = VALUES[below(me, 8)];
    const size_t length = strlen(path);
    *out = (tempolemon_result){0};
    me->written = 0;
    me->is_dirty = false;
    if (pick < 5) {
        snprintf(me->line, sizeof me->line, "mkdir %s", path);
        return tempolemon_on_mkdir(&me->cpu, path, length, out);
    }
    if (pick < 7) {
        snprintf(me->line, sizeof me->line, "rmdir %s", path);
        return tempolemon_on_rmdir(&me->cpu, path, length, out);
    }
    if (pick < 12) {
        snprintf(me->line, sizeof me->line, "write %s %s %s", path, file, value);
        return tempolemon_on_write(&me->cpu, path, length, file, strlen(file), value, strlen(value), out);
    }
    if (pick < 17) {
        snprintf(me->line, sizeof me->line, "read %s %s", path, file);
        const uint8_t status = tempolemon_on_read(&me->cpu, path, length, file, strlen(file), me->text, 256, out);
        if (out->kind == TEMPOLEMON_TEXT) me->written = (size_t)out->number;
        return status;
    }
    if (pick < 20) {
        strcpy(me->line, "settle");
        return tempolemon_on_settle(&me->cpu, out);
    }
    if (pick < 22) {
        static const char *const SHOWN[] = {"show", "blocks", "stock"};
        const uint32_t what = below(me, 4);
        if (what == 3) {
            snprintf(me->line, sizeof me->line, "units %s", path);
            return tempolemon_on_units(&me->cpu, path, length, me->text, TEXT_ROOM, &me->written);
        }
        strcpy(me->line, SHOWN[what]);
        if (what == 0) return tempolemon_on_show(&me->cpu, me->text, TEXT_ROOM, &me->written);
        if (what == 1) return tempolemon_on_blocks(&me->cpu, me->text, TEXT_ROOM, &me->written);
        return tempolemon_on_stock(&me->cpu, me->text, TEXT_ROOM, &me->written);
    }
    const uint32_t group = some_group(me);
    if (pick < 55 && (group || !is_replay)) {
        const uint32_t order = pick < 47 ? 0 : below(me, 12);
        snprintf(me->line, sizeof me->line, "alloc %s %u", group_paths[group], order);
        me->is_dirty = below(me, 8) == 0;
        const uint8_t status = me->is_dirty ? tempolemon_on_alloc_dirty(&me->cpu, group, order, out)
                                            : tempolemon_on_alloc(&me->cpu, group, order, out);
        if (out->kind == TEMPOLEMON_FRAME) me->recent[me->frames++ % 64] = (uint32_t)out->number;
        return status;
    }
    const uint32_t known = me->recent[below(me, 64)];
    return at_frame(me, below(me, 7), below(me, 10) ? known : below(me, 16), out);
}

static void *storm(void *at) {
    caller *me = at;
    tempolemon_result result;
    while (!atomic_load(&is_over)) {
        const uint8_t status = call(me, &result);
        me->calls++;
        me->refused += status != TEMPOLEMON_DONE;
        if (status > 22 && status != TEMPOLEMON_BAD_GROUP && status != TEMPOLEMON_SMALL_BUFFER) need(status, me->line);
    }
    need(tempolemon_return(&me->cpu), "return");
    return NULL;
}

static int storms(uint32_t threads, unsigned seconds, uint64_t seed) {
    const tempolemon_sizes sizes = {.frames = 512, .cpus = threads, .batch = 8, .high = 32, .stock = 8};
    tempolemon_report report;
    need(tempolemon_zone_boot(&sizes, &zone), "boot");
    for (uint32_t at = 0; at < threads; at++) {
        need(tempolemon_take(&zone, at + 1, &callers[at].cpu), "take");
        callers[at].seed = seed * 1000 + at;
        if (pthread_create(&callers[at].thread, NULL, storm, &callers[at])) return 2;
    }
    nanosleep(&(struct timespec){.tv_sec = (time_t)seconds}, NULL);
    atomic_store(&is_over, true);
    unsigned long calls = 0, refused = 0;
    for (uint32_t at = 0; at < threads; at++) {
        pthread_join(callers[at].thread, NULL);
        calls += callers[at].calls;
        refused += callers[at].refused;
    }
    need(tempolemon_zone_end(&zone, &report), "end");
    const bool adds_up = report.free + report.charged == report.frames && report.frames == sizes.frames
                         && report.returns == report.last_puts + report.freezes + report.drops;
    printf("seed %llu, %u threads: %lu calls, %lu refused, %llu units returned%s\n", (unsigned long long)seed, threads,
           calls, refused, (unsigned long long)report.returns, adds_up ? "" : ": the audit doesn't add up");
    return adds_up ? 0 : 1;
}

/* What the program writes for what a call gave. */
static void tell(caller *me, uint8_t status, const tempolemon_result *result) {
    if (status > 0 && status <= 22) {
        fprintf(stderr, "refused %u %s", status, REFUSALS[status]);
        if (status == TEMPOLEMON_OVER_LIMIT) fprintf(stderr, " %s", group_paths[result->number]);
        fputc('\n', stderr);
    } else if (me->written || result->kind == TEMPOLEMON_TEXT || result->kind == TEMPOLEMON_NOTHING) {
        fwrite(me->text, 1, me->written, stderr);
    } else {
        if (result->kind == TEMPOLEMON_CHARGED)
            fputs(group_paths[result->number], stderr);
        else
            fprintf(stderr, WORDS[result->kind], (unsigned long long)result->number);
        fputc('\n', stderr);
    }
}

static int replays(int commands, uint64_t seed) {
    const tempolemon_sizes sizes = {.frames = 64, .cpus = 1, .batch = 4, .high = 16, .stock = 8};
    caller *me = &callers[0];
    tempolemon_report report;
    is_replay = true;
    strcpy(group_paths[0], "/");
    me->seed = seed;
    need(tempolemon_zone_boot(&sizes, &zone), "boot");
    need(tempolemon_take(&zone, 1, &me->cpu), "take");
    for (int at = 0; at < commands; at++) {
        tempolemon_result result;
        const uint8_t status = call(me, &result);
        printf("1 %s\n", me->line);
        if (!strncmp(me->line, "mkdir ", 6) && result.kind == TEMPOLEMON_GROUP)
            strcpy(group_paths[result.number], me->line + 6);
        if (!strncmp(me->line, "rmdir ", 6) && status == TEMPOLEMON_DONE)
            for (int group = 1; group < 64; group++)
                if (!strcmp(group_paths[group], me->line + 6)) group_paths[group][0] = 0;
        tell(me, status, &result);
        if (me->is_dirty && status == TEMPOLEMON_DONE) {
            printf("1 dirty %llu\n", (unsigned long long)result.number);
            fputs("ok\n", stderr);
        }
    }
    need(tempolemon_return(&me->cpu), "return");
    need(tempolemon_zone_end(&zone, &report), "end");
    if (report.held) fprintf(stderr, "held %llu\n", (unsigned long long)report.held);
    fprintf(stderr, "audit frames %u free %u charged %u\n", report.frames, report.free, report.charged);
    fprintf(stderr, "audit puts %llu freezes %llu drops %llu returns %llu\n", (unsigned long long)report.last_puts,
            (unsigned long long)report.freezes, (unsigned long long)report.drops, (unsigned long long)report.returns);
    return 0;
}

int main(int count, char **words) {
    if (count == 5 && !strcmp(words[1], "storm") && atoi(words[2]) <= MOST_THREADS)
        return storms((uint32_t)atoi(words[2]), (unsigned)atoi(words[3]), (uint64_t)atoll(words[4]));
    if (count == 4 && !strcmp(words[1], "replay")) return replays(atoi(words[2]), (uint64_t)atoll(words[3]));
    fputs("threads-storm: bad words\n", stderr);
    return 2;
}
