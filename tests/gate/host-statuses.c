/* Calls the library with each refusal, and with buffers that fit exactly or lack a byte: tests/gate/hosts runs it. */
#define _DEFAULT_SOURCE
#include <stdio.h>
#include <string.h>
#include <sys/mman.h>
#include <tempolemon.h>

static const tempolemon_sizes SIZES = {.frames = 16, .cpus = 2, .batch = 4, .high = 8, .stock = 4};
static int failures;

/* The answers to the script, without the report of the end, in a buffer of `room` bytes that held 'x' in each. */
static void expect(const char *what, tempolemon_sizes sizes, const char *script, size_t room,
                   uint8_t status, const char *answers, size_t written, size_t first_bad) {
    char buffer[64], wanted[64];
    size_t given_written = 77, given_bad = 77;
    memset(buffer, 'x', sizeof buffer);
    memset(wanted, 'x', sizeof wanted);
    memcpy(wanted, answers, strlen(answers));
    uint8_t given = tempolemon_replay(&sizes, false, false, script, strlen(script), buffer, room,
                                      &given_written, &given_bad);
    if (given != status || given_written != written || given_bad != first_bad
        || memcmp(buffer, wanted, sizeof buffer) != 0) {
        printf("%s: status %u, %zu written, bad line %zu, %.64s\n",
               what, given, given_written, given_bad, buffer);
        failures++;
    }
}

static void is(const char *what, uint8_t given, uint8_t status) {
    if (given == status) return;
    printf("%s: status %u in place of %u\n", what, given, status);
    failures++;
}

#define BYTES(text) (text), strlen(text)

/* The calls of hosts that were compiled with headers of other versions, before a boot and with one. */
static void other_versions(void) {
    const uint32_t versions[] = {0, TEMPOLEMON_VERSION - 1, TEMPOLEMON_VERSION + 1, UINT32_MAX};
    tempolemon_handle host = {0};
    tempolemon_report report;
    for (size_t at = 0; at < sizeof versions / sizeof *versions; at++) {
        char buffer[8] = "before";
        size_t written = 77, first_bad = 78;
        is("a boot of another version", tempolemon_boot_as(versions[at], &SIZES, &host), TEMPOLEMON_BAD_VERSION);
        is("its handle", host.raw || host.is_live, false);
        is("a replay of another version",
           tempolemon_replay_as(versions[at], &SIZES, false, false, BYTES("1 mkdir /a\n"), buffer, sizeof buffer,
                                &written, &first_bad),
           TEMPOLEMON_BAD_VERSION);
        is("what it wrote", written != 77 || first_bad != 78 || memcmp(buffer, "before", 7) != 0, false);
    }
    /* The version is judged before a pointer is followed: these lead to a page that nobody may read or write. */
    void *page = mmap(NULL, 4096, PROT_NONE, MAP_PRIVATE | MAP_ANONYMOUS, -1, 0);
    is("a page without access", page == MAP_FAILED, false);
    is("a boot that may read nothing", tempolemon_boot_as(0, page, page), TEMPOLEMON_BAD_VERSION);
    is("a replay that may read nothing", tempolemon_replay_as(0, page, false, false, page, 1, page, 1, page, page),
       TEMPOLEMON_BAD_VERSION);
    munmap(page, 4096);
    is("the version of the library", tempolemon_version() != TEMPOLEMON_VERSION, false);
    is("a boot of this version", tempolemon_boot_as(TEMPOLEMON_VERSION, &SIZES, &host), TEMPOLEMON_DONE);
    is("a second boot of version 0", tempolemon_boot_as(0, &SIZES, &host), TEMPOLEMON_BAD_VERSION);
    is("the end of the first", tempolemon_end(&host, &report), TEMPOLEMON_DONE);
}

#define MANY 25000
static char many[9 * MANY], told[8 * MANY];

/* A handle before its boot, with it, and after it. */
static void live(void) {
    tempolemon_sizes low_high = SIZES;
    tempolemon_handle host = {0};
    tempolemon_result result;
    tempolemon_report report;
    char buffer[256] = {0};
    size_t written = 77, first_bad;
    low_high.high = 3;

    is("an end of none", tempolemon_end(&host, &report), TEMPOLEMON_NOT_LIVE);
    is("a call of none", tempolemon_get(&host, 1, 0, &result), TEMPOLEMON_NOT_LIVE);
    is("an answer of none", tempolemon_answer(&host, buffer, 256, &written), TEMPOLEMON_NOT_LIVE);
    is("its length", written != 0, 0);
    is("a short buffer of none", tempolemon_read(&host, 1, BYTES("/a"), BYTES("memory.max"), buffer, 10, &result),
       TEMPOLEMON_SMALL_BUFFER);
    is("a boot with a low high", tempolemon_boot(&low_high, &host), TEMPOLEMON_BAD_CONFIG);
    is("a call after that", tempolemon_settle(&host, 1, &result), TEMPOLEMON_NOT_LIVE);
    is("a boot", tempolemon_boot(&SIZES, &host), TEMPOLEMON_DONE);
    is("a second boot", tempolemon_boot(&SIZES, &host), TEMPOLEMON_IS_LIVE);
    is("CPU 0", tempolemon_get(&host, 0, 0, &result), TEMPOLEMON_BAD_CPU);
    is("CPU 3", tempolemon_settle(&host, 3, &result), TEMPOLEMON_BAD_CPU);
    is("frame 16", tempolemon_get(&host, 1, 16, &result), TEMPOLEMON_BAD_FRAME);
    is("group 1", tempolemon_alloc(&host, 1, 1, 0, &result), TEMPOLEMON_BAD_GROUP);
    is("group 64", tempolemon_alloc(&host, 1, 64, 0, &result), TEMPOLEMON_BAD_GROUP);
    is("CPU 3 and frame 16", tempolemon_get(&host, 3, 16, &result), TEMPOLEMON_BAD_CPU);
    is("CPU 3 and group 64", tempolemon_alloc(&host, 3, 64, 0, &result), TEMPOLEMON_BAD_CPU);
    for (size_t room = 0; room < 256; room++)
        is("a short buffer", tempolemon_read(&host, 1, BYTES("/a"), BYTES("memory.max"), buffer, room, &result),
           TEMPOLEMON_SMALL_BUFFER);
    is("a refusal", tempolemon_put(&host, 1, 0, &result), TEMPOLEMON_NOT_PINNED);
    is("its kind", result.kind, TEMPOLEMON_REFUSED);
    is("a bad line", tempolemon_command(&host, false, BYTES("3 settle\n"), buffer, 256, &written, &first_bad),
       TEMPOLEMON_BAD_LINE);
    is("an unread answer", tempolemon_command(&host, false, BYTES("1 mkdir /a\n"), buffer, 7, &written, &first_bad),
       TEMPOLEMON_SMALL_BUFFER);
    is("a byte less", tempolemon_answer(&host, buffer, 7, &written), TEMPOLEMON_SMALL_BUFFER);
    is("enough", tempolemon_answer(&host, buffer, 8, &written), TEMPOLEMON_DONE);
    is("the answer", memcmp(buffer, "group 1\n", 8) != 0, 0);
    for (size_t line = 0; line < MANY; line++) memcpy(many + 9 * line, "1 settle\n", 9);
    is("many lines", tempolemon_command(&host, false, many, sizeof many, told, sizeof told, &written, &first_bad),
       TEMPOLEMON_DONE);
    is("their answers", written != sizeof told || memcmp(told + sizeof told - 8, "settled\n", 8) != 0, 0);
    is("a dirty alloc", tempolemon_alloc_dirty(&host, 1, 1, 0, &result), TEMPOLEMON_DONE);
    is("its kind", result.kind, TEMPOLEMON_FRAME);
    is("a get of it", tempolemon_get(&host, 2, (uint32_t)result.number, &result), TEMPOLEMON_DONE);
    is("its kind", result.kind, TEMPOLEMON_HELD);
    is("a dirty alloc of order 11", tempolemon_alloc_dirty(&host, 1, 1, 11, &result), TEMPOLEMON_BAD_ORDER);
    uint32_t pinned[2];
    for (int at = 0; at < 2; at++) {
        is("a pinned alloc", tempolemon_alloc_pinned(&host, 1, 1, 1, &result), TEMPOLEMON_DONE);
        is("its kind", result.kind, TEMPOLEMON_FRAME);
        pinned[at] = (uint32_t)result.number;
    }
    is("a pinned alloc at CPU 3", tempolemon_alloc_pinned(&host, 3, 64, 0, &result), TEMPOLEMON_BAD_CPU);
    is("a pinned alloc of order 0", tempolemon_alloc_pinned(&host, 1, 64, 0, &result), TEMPOLEMON_BAD_ORDER);
    is("a pinned alloc for group 64", tempolemon_alloc_pinned(&host, 1, 64, 1, &result), TEMPOLEMON_BAD_GROUP);
    for (int pins = 2; pins < 256; pins++) {
        is("a get", tempolemon_get(&host, 1, pinned[pins % 2], &result), TEMPOLEMON_DONE);
        is("its kind", result.kind, TEMPOLEMON_HELD);
    }
    is("pin 257", tempolemon_alloc_pinned(&host, 1, 1, 0, &result), TEMPOLEMON_PINS_FULL);
    is("its kind", result.kind, TEMPOLEMON_REFUSED);
    for (int pins = 0; pins < 256; pins++) {
        is("a put", tempolemon_put(&host, 1, pinned[pins % 2], &result), TEMPOLEMON_DONE);
        is("its kind", result.kind, TEMPOLEMON_LEFT);
    }
    is("an alloc", tempolemon_alloc(&host, 1, 1, 0, &result), TEMPOLEMON_DONE);
    const uint32_t frame = (uint32_t)result.number;
    is("a get of a fresh frame", tempolemon_get(&host, 2, frame, &result), TEMPOLEMON_DONE);
    is("its kind", result.kind, TEMPOLEMON_ZERO);
    is("a settle", tempolemon_settle(&host, 1, &result), TEMPOLEMON_DONE);
    is("a get", tempolemon_get(&host, 2, frame, &result), TEMPOLEMON_DONE);
    is("its kind then", result.kind, TEMPOLEMON_HELD);
    is("an end", tempolemon_end(&host, &report), TEMPOLEMON_DONE);
    is("its pins", (uint8_t)report.held, 2);
    is("a second end", tempolemon_end(&host, &report), TEMPOLEMON_NOT_LIVE);
}

int main(void) {
    tempolemon_sizes low_high = SIZES, no_frames = SIZES, great_batch = SIZES, no_kill = SIZES, two = SIZES, proportional_two = SIZES,
                     many_groups = SIZES, most_groups = SIZES, few_groups = SIZES;
    low_high.high = 3;
    great_batch.reclaim_batch = 65;
    no_kill.no_kill = 1;
    two.no_kill = 2;
    proportional_two.proportional = 2;
    no_frames.frames = 0;
    many_groups.groups = 1025;
    most_groups.groups = 1024;
    few_groups.groups = 2;
    expect("an exact buffer", SIZES, "1 mkdir /a\n", 8, TEMPOLEMON_DONE, "group 1\n", 8, 0);
    expect("a longer buffer", SIZES, "1 mkdir /a\n", 64, TEMPOLEMON_DONE, "group 1\n", 8, 0);
    expect("one byte less", SIZES, "1 mkdir /a\n", 7, TEMPOLEMON_SMALL_BUFFER, "", 8, 0);
    expect("no buffer", SIZES, "1 mkdir /a\n", 0, TEMPOLEMON_SMALL_BUFFER, "", 8, 0);
    expect("no lines", SIZES, "", 0, TEMPOLEMON_DONE, "", 0, 0);
    expect("a bad line", SIZES, "1 mkdir /a\n3 settle\n", 64, TEMPOLEMON_BAD_LINE, "", 0, 2);
    expect("a low high", low_high, "1 mkdir /a\n", 64, TEMPOLEMON_BAD_CONFIG, "", 0, 0);
    expect("no frames", no_frames, "bad\n", 64, TEMPOLEMON_BAD_CONFIG, "", 0, 0);
    expect("a great batch of reclaim", great_batch, "1 mkdir /a\n", 64, TEMPOLEMON_BAD_CONFIG, "", 0, 0);
    expect("no_kill of 2", two, "1 mkdir /a\n", 64, TEMPOLEMON_BAD_CONFIG, "", 0, 0);
    expect("proportional of 2", proportional_two, "1 mkdir /a\n", 64, TEMPOLEMON_BAD_CONFIG, "", 0, 0);
    expect("more groups than there may be", many_groups, "1 mkdir /a\n", 64, TEMPOLEMON_BAD_CONFIG, "", 0, 0);
    expect("the last number of the most groups", most_groups, "1 fast 1023\n", 64, TEMPOLEMON_DONE, "list-empty\n", 11, 0);
    expect("the group after the room", few_groups, "1 fast 1\n1 fast 2\n", 64, TEMPOLEMON_BAD_LINE, "", 0, 2);
    expect("a second group in a room for one", few_groups, "1 mkdir /a\n1 mkdir /b\n", 64, TEMPOLEMON_DONE,
           "group 1\nrefused 4 TreeFull\n", 27, 0);
    great_batch.reclaim_batch = 64;
    expect("the greatest batch of reclaim", great_batch, "1 mkdir /a\n", 64, TEMPOLEMON_DONE, "group 1\n", 8, 0);
    expect("nobody is killed", no_kill, "1 mkdir /a\n1 write /a memory.max 4K\n1 alloc /a 0\n1 dirty 0\n1 alloc /a 0\n", 64,
           TEMPOLEMON_DONE, "group 1\nok\nframe 0\nok\nrefused 15 OverLimit /a\n", 46, 0);
    other_versions();
    live();
    return failures != 0;
}
