/* Times calls of the library for C:
 *
 *     cc -O2 tests/tools/call-speed.c -Iout/lib -Lout/lib -ltempolemon -o call-speed && ./call-speed
 *
 * Each row is the least of ten runs, in nanoseconds for each round.
 */
#define _POSIX_C_SOURCE 200809L
#include <stdio.h>
#include <stdlib.h>
#include <string.h>
#include <tempolemon.h>
#include <time.h>

#define ROUNDS 1000000
#define BYTES(text) (text), strlen(text)

static tempolemon_handle host;
static tempolemon_result result;
static uint32_t group, frame;

static void ask(uint8_t status, const char *what) {
    if (status == TEMPOLEMON_DONE) return;
    fprintf(stderr, "%s: status %u\n", what, status);
    exit(EXIT_FAILURE);
}

static void get_and_put(void) {
    ask(tempolemon_get(&host, 1, frame, &result), "get");
    ask(tempolemon_put(&host, 1, frame, &result), "put");
}

static void alloc_and_release(void) {
    ask(tempolemon_alloc(&host, 1, group, 0, &result), "alloc");
    ask(tempolemon_release(&host, 1, (uint32_t)result.number, &result), "release");
}

static void alloc_settle_and_release(void) {
    ask(tempolemon_alloc(&host, 1, group, 0, &result), "alloc");
    const uint32_t taken = (uint32_t)result.number;
    ask(tempolemon_settle(&host, 1, &result), "settle");
    ask(tempolemon_release(&host, 1, taken, &result), "release");
}

static void write_limit(void) {
    ask(tempolemon_write(&host, 1, BYTES("/a"), BYTES("memory.max"), BYTES("max"), &result), "write");
}

static void read_usage(void) {
    char text[256];
    ask(tempolemon_read(&host, 1, BYTES("/a"), BYTES("memory.current"), text, sizeof text, &result), "read");
}

static void command(void) {
    char answers[64];
    size_t written, first_bad;
    ask(tempolemon_command(&host, false, BYTES("1 settle\n"), answers, sizeof answers, &written, &first_bad),
        "command");
}

static void measure(const char *what, void (*round)(void)) {
    double least = 1e18;
    for (int run = 0; run < 10; run++) {
        struct timespec from, to;
        clock_gettime(CLOCK_MONOTONIC, &from);
        for (int at = 0; at < ROUNDS; at++) round();
        clock_gettime(CLOCK_MONOTONIC, &to);
        const double taken = ((double)(to.tv_sec - from.tv_sec) * 1e9 + (double)(to.tv_nsec - from.tv_nsec)) / ROUNDS;
        if (taken < least) least = taken;
    }
    printf("%-50s %7.1f ns\n", what, least);
}

int main(void) {
    const tempolemon_sizes sizes = {.frames = 1024, .cpus = 2, .batch = 16, .high = 64, .stock = 32};
    tempolemon_report report;
    ask(tempolemon_boot(&sizes, &host), "boot");
    ask(tempolemon_mkdir(&host, 1, BYTES("/a"), &result), "mkdir");
    group = (uint32_t)result.number;
    ask(tempolemon_alloc(&host, 1, group, 1, &result), "alloc");
    frame = (uint32_t)result.number;
    measure("a get and a put", get_and_put);
    measure("an alloc and a release, without the lock", alloc_and_release);
    measure("an alloc, a settle and a release", alloc_settle_and_release);
    measure("a write of a limit", write_limit);
    measure("a read of the usage", read_usage);
    measure("a command of one line", command);
    ask(tempolemon_end(&host, &report), "end");
    return EXIT_SUCCESS;
}
