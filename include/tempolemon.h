/* Tempolemon: the memory controller of Linux cgroup v2 over a zone of 4 KiB page frames.
 *
 *     cc host.c -Iinclude -Lout/lib -ltempolemon
 *
 * tempolemon_replay answers a whole script in one call. tempolemon_boot starts a boot that lives until tempolemon_end, and
 * the other calls are made on its handle.
 *
 * Threads: the archive has no state of its own. Calls on different handles may run on different threads at once, calls on
 * one handle may not. Don't call from a signal handler, nor in the forked child of a process with threads.
 *
 * Ownership: the host owns what its pointers lead to. A call uses that until it returns, and keeps no pointer to it. Memory
 * comes from the program's malloc, realloc and free, which align a block to each power of two up to 16 that divides its
 * size. The end of a boot frees all that its calls took.
 *
 * What is written: what the call's comment says, and the handle of a boot. All else that pointers lead to is unchanged.
 *
 * No pointer may be null, not even to 0 bytes, and no two pointers of a call may lead to the same bytes. Lengths are
 * bytes, and below 2^63. Texts don't end with a null byte.
 */
#ifndef TEMPOLEMON_H
#define TEMPOLEMON_H

#include <stdbool.h>
#include <stddef.h>
#include <stdint.h>

#ifdef __cplusplus
extern "C" {
#endif

/* A compiler warns of a host that doesn't read a status. */
#if (defined(__cplusplus) && __cplusplus >= 201703L) || (defined(__STDC_VERSION__) && __STDC_VERSION__ >= 202311L)
#define TEMPOLEMON_NODISCARD [[nodiscard]]
#elif defined(__GNUC__)
#define TEMPOLEMON_NODISCARD __attribute__((warn_unused_result))
#else
#define TEMPOLEMON_NODISCARD
#endif

/* TEMPOLEMON_VERSION counts the forms of both headers. It changes if a struct, a number or a call changes so that a host
 * has to be compiled anew. The inline calls, which take sizes, pass it to the exported call of their name with _as. If the
 * archive was made for another version, that call returns BAD_VERSION before it reads or writes what a pointer leads to.
 * A host that doesn't include this header calls _as itself, with the version that it was written for.
 */
#define TEMPOLEMON_VERSION 3

/* The version of the headers that the archive was made for. */
uint32_t tempolemon_version(void);

/* What a call returns: 0, the number that docs/MANUAL.md gives a refusal, 1 to 22, or one above 100. The statuses 109 to 114
 * are of tempolemon_threads.h alone. tempolemon_status_text has a sentence for each. */
enum {
    TEMPOLEMON_DONE = 0,
    TEMPOLEMON_NO_PARENT = 1,
    TEMPOLEMON_EXISTS = 2,
    TEMPOLEMON_BAD_NAME = 3,
    TEMPOLEMON_TREE_FULL = 4,
    TEMPOLEMON_TOO_DEEP = 5,
    TEMPOLEMON_NO_GROUP = 6,
    TEMPOLEMON_HAS_CHILDREN = 7,
    TEMPOLEMON_GROUP_BUSY = 8, /* Busy in the manual */
    TEMPOLEMON_PINS_FULL = 9,
    TEMPOLEMON_NO_FILE = 10,
    TEMPOLEMON_READ_ONLY = 11,
    TEMPOLEMON_BAD_LIMIT = 12,
    TEMPOLEMON_BAD_NUMBER = 13,
    TEMPOLEMON_BAD_CONFIG = 14,
    TEMPOLEMON_OVER_LIMIT = 15,
    TEMPOLEMON_NO_FRAMES = 16,
    TEMPOLEMON_AGAIN = 17,
    TEMPOLEMON_KILLED = 18,
    TEMPOLEMON_BAD_ORDER = 19,
    TEMPOLEMON_NOT_KEPT = 20,
    TEMPOLEMON_NOT_PINNED = 21,
    TEMPOLEMON_WRITE_ONLY = 22,
    TEMPOLEMON_NO_MEMORY = 101,
    TEMPOLEMON_BAD_LINE = 102,
    TEMPOLEMON_SMALL_BUFFER = 103,
    TEMPOLEMON_NOT_LIVE = 104,
    TEMPOLEMON_IS_LIVE = 105,
    TEMPOLEMON_BAD_CPU = 106,
    TEMPOLEMON_BAD_FRAME = 107,
    TEMPOLEMON_BAD_GROUP = 108,
    TEMPOLEMON_BUSY = 109, /* of tempolemon_try_.. alone */
    TEMPOLEMON_CPU_OUT = 110,
    TEMPOLEMON_CPUS_OUT = 111,
    TEMPOLEMON_LOST = 112,
    TEMPOLEMON_IN_USE = 113, /* not with NDEBUG */
    TEMPOLEMON_COPIED = 114, /* not with NDEBUG */
    TEMPOLEMON_BAD_VERSION = 115,
};

/* The sentence of a status, which ends with a null byte. It is a constant: don't free it. */
static inline const char *tempolemon_status_text(uint8_t status) {
    switch (status) {
    case TEMPOLEMON_DONE: return "the call did what it is for";
    case TEMPOLEMON_NO_PARENT: return "the parent group is not there";
    case TEMPOLEMON_EXISTS: return "the group is there already";
    case TEMPOLEMON_BAD_NAME: return "the path is malformed or that of the root";
    case TEMPOLEMON_TREE_FULL: return "there is no room for one more group";
    case TEMPOLEMON_TOO_DEEP: return "the path has more than 8 names";
    case TEMPOLEMON_NO_GROUP: return "the group is not there";
    case TEMPOLEMON_HAS_CHILDREN: return "the group has children";
    case TEMPOLEMON_GROUP_BUSY: return "the group still has pages";
    case TEMPOLEMON_PINS_FULL: return "the CPU holds too many references";
    case TEMPOLEMON_NO_FILE: return "the group has no such file";
    case TEMPOLEMON_READ_ONLY: return "the file cannot be written";
    case TEMPOLEMON_BAD_LIMIT: return "the text is no limit";
    case TEMPOLEMON_BAD_NUMBER: return "the limit is too great a number";
    case TEMPOLEMON_BAD_CONFIG: return "the configuration is out of range";
    case TEMPOLEMON_OVER_LIMIT: return "the charge goes over the limit of a group";
    case TEMPOLEMON_NO_FRAMES: return "the zone has no free block that is great enough";
    case TEMPOLEMON_AGAIN: return "fewer pages were given back than asked";
    case TEMPOLEMON_KILLED: return "the group was killed";
    case TEMPOLEMON_BAD_ORDER: return "the order is above 10";
    case TEMPOLEMON_NOT_KEPT: return "the frame is not the head of a kept unit";
    case TEMPOLEMON_NOT_PINNED: return "the CPU holds no reference on the frame";
    case TEMPOLEMON_WRITE_ONLY: return "the file cannot be read";
    case TEMPOLEMON_NO_MEMORY: return "memory ran out";
    case TEMPOLEMON_BAD_LINE: return "a line of the script isn't in the grammar";
    case TEMPOLEMON_SMALL_BUFFER: return "the buffer is shorter than the text";
    case TEMPOLEMON_NOT_LIVE: return "the handle has none: no boot, no zone or no CPU";
    case TEMPOLEMON_IS_LIVE: return "the handle has one already";
    case TEMPOLEMON_BAD_CPU: return "the zone has no CPU of this number";
    case TEMPOLEMON_BAD_FRAME: return "the zone has no frame of this number";
    case TEMPOLEMON_BAD_GROUP: return "no group has this number";
    case TEMPOLEMON_BUSY: return "another thread has the lock";
    case TEMPOLEMON_CPU_OUT: return "another handle has this CPU";
    case TEMPOLEMON_CPUS_OUT: return "a CPU of the zone isn't returned";
    case TEMPOLEMON_LOST: return "a part of the zone wasn't there, which no call leaves so";
    case TEMPOLEMON_IN_USE: return "another thread is inside a call on this CPU handle";
    case TEMPOLEMON_COPIED: return "the CPU handle was copied or moved";
    case TEMPOLEMON_BAD_VERSION: return "the host was compiled with the headers of another version";
    default: return "the status is unknown";
    }
}

/* The kinds of what a typed call gives. Each is that of the answer to a script's line. */
enum {
    TEMPOLEMON_NOTHING = 0,   /* the call wasn't served: its status is above 100 */
    TEMPOLEMON_OK = 1,        /* it was done */
    TEMPOLEMON_GROUP = 2,     /* the group of this number was made */
    TEMPOLEMON_FRAME = 3,     /* the unit that was allocated begins at this frame */
    TEMPOLEMON_TEXT = 4,      /* the file's text has so many bytes */
    TEMPOLEMON_FREE = 5,      /* the frame is free */
    TEMPOLEMON_CPU = 6,       /* the frame is lent to this CPU */
    TEMPOLEMON_CHARGED = 7,   /* the frame is charged to the group of this number */
    TEMPOLEMON_MARKED = 8,    /* the unit is marked now */
    TEMPOLEMON_ACTIVE = 9,    /* the unit is the newest active one */
    TEMPOLEMON_LEFT = 10,     /* so many references are left */
    TEMPOLEMON_RETURNED = 11, /* the unit was freed */
    TEMPOLEMON_SETTLED = 12,  /* the CPU was settled */
    TEMPOLEMON_LISTED = 13,   /* a fresh frame is on the CPU's list again */
    TEMPOLEMON_HELD = 14,     /* the pin is held */
    TEMPOLEMON_ZERO = 15,     /* no pin: the frame has no reference */
    TEMPOLEMON_RACED = 16,    /* no pin: the references changed meanwhile */
    TEMPOLEMON_FULL = 17,     /* no pin: the frame has 255 references */
    TEMPOLEMON_LAST = 18,     /* the last reference was put */
    TEMPOLEMON_REFUSED = 20,  /* the status says why; of 15 the number is the group whose limit has no room */
    TEMPOLEMON_NOT_FAST = 21, /* no call here answers this */
    TEMPOLEMON_PAGES = 22,    /* the group has so many pages (tempolemon_threads.h alone) */
    TEMPOLEMON_NO_LIMIT = 23, /* the group has no such limit (tempolemon_threads.h alone) */
};

/* The sizes of a zone. */
typedef struct {
    uint32_t frames; /* frames of the zone, numbered from 0: 1 to 1,048,576 */
    uint32_t cpus;   /* CPUs, numbered from 1: 1 to 64 */
    uint32_t batch;  /* frames by which a CPU's list is refilled or cut: 1 to 64 */
    uint32_t high;   /* frames at which a CPU's list is cut: batch to 256 */
    uint32_t stock;  /* pages that a CPU prepays at once: 1 to 64 */
    uint32_t reclaim_batch; /* pages that a round of reclaim for a charge wants at least: 0 to 64; 0 is 1 */
    uint32_t no_kill; /* 0, or 1: nobody is killed, and a charge without room is refused with 15 */
    uint32_t proportional; /* 0, or 1: reclaim first takes of each group in proportion to its clean pages */
    uint32_t groups; /* groups that may exist at once, with the root: 0 to 1,024; 0 is 64 */
} tempolemon_sizes;

/* Boots a zone, replays a script on it, and ends the boot. The answers are those of `memcg replay`, byte for byte.
 *
 * The script has at most 1,048,576 bytes: the lines of docs/MANUAL.md. is_explained asks for why a line was refused and
 * what it drained, reclaimed and killed, after its answer; is_audited asks for the report of the end, after all
 * answers. answers is a buffer of `room` bytes. script and answers may be empty, and point to anything then except null.
 *
 *   DONE          the answers are the first *written bytes of the buffer; the rest of it is unchanged
 *   BAD_VERSION   the archive is of another version; this is judged first, and *written and *first_bad are unchanged
 *   BAD_CONFIG    a size is out of its range, or a flag above 1; this is judged before the script
 *   BAD_LINE      *first_bad is the number of the first bad line, counted from 1
 *   SMALL_BUFFER  the answers have *written bytes, which is more than `room`: call again with so many
 *   NO_MEMORY     memory ran out
 *
 * Unless the status is DONE the buffer is unchanged. *written is 0 for BAD_CONFIG, BAD_LINE and NO_MEMORY, and *first_bad
 * is 0 for DONE, BAD_CONFIG, SMALL_BUFFER and NO_MEMORY. Nothing of the boot stays, and all its memory is freed.
 */
TEMPOLEMON_NODISCARD uint8_t tempolemon_replay_as(uint32_t version, const tempolemon_sizes *sizes, bool is_explained,
                                                  bool is_audited, const char *script, size_t length, char *answers,
                                                  size_t room, size_t *written, size_t *first_bad);
TEMPOLEMON_NODISCARD static inline uint8_t tempolemon_replay(const tempolemon_sizes *sizes, bool is_explained,
                                                             bool is_audited, const char *script, size_t length,
                                                             char *answers, size_t room, size_t *written,
                                                             size_t *first_bad) {
    return tempolemon_replay_as(TEMPOLEMON_VERSION, sizes, is_explained, is_audited, script, length, answers, room,
                                written, first_bad);
}

/* A handle to a boot that lives between calls. All bytes 0, `{0}`, is none; a host begins with that, and writes nothing
 * into it afterwards. Don't copy it: one boot has one handle. A handle may pass from thread to thread, but is used by one
 * call at a time. Handles don't see each other.
 */
typedef struct {
    void *raw;
    bool is_live;
} tempolemon_handle;

/* What a typed call gives: a kind, and the number that goes with it. */
typedef struct {
    uint64_t number; /* 0 if none goes with the kind */
    uint8_t kind;
} tempolemon_result;

/* What a boot reports at its end, in the words of docs/MANUAL.md, "The end, and --audit". */
typedef struct {
    uint64_t held;      /* pins that were still held, and were put then */
    uint64_t last_puts; /* uses of units that ended by a last put */
    uint64_t freezes;   /* by reclaim */
    uint64_t drops;     /* by a drop of a fresh frame */
    uint64_t returns;   /* units that were freed */
    uint32_t frames;    /* frames of the zone */
    uint32_t free;      /* those that are free */
    uint32_t charged;   /* those that are charged to a group */
} tempolemon_report;

/* Boots a zone of these sizes behind a handle that has none.
 *
 *   DONE         the handle has a boot; tempolemon_end frees it
 *   BAD_VERSION  the archive is of another version; this is judged first
 *   IS_LIVE      the handle had a boot, and has it still
 *   BAD_CONFIG   a size is out of its range, or a flag above 1
 *   NO_MEMORY    memory ran out
 *
 * Unless the status is DONE, the handle is unchanged and nothing of the boot stays. A boot takes all memory that it ever
 * needs, except for the lines of tempolemon_command and their answers.
 */
TEMPOLEMON_NODISCARD uint8_t tempolemon_boot_as(uint32_t version, const tempolemon_sizes *sizes,
                                                tempolemon_handle *handle);
TEMPOLEMON_NODISCARD static inline uint8_t tempolemon_boot(const tempolemon_sizes *sizes, tempolemon_handle *handle) {
    return tempolemon_boot_as(TEMPOLEMON_VERSION, sizes, handle);
}

/* Ends the boot and frees its memory. Pins that are still held are put first.
 *
 *   DONE      the handle has no boot any more, and the report is that of the end
 *   NOT_LIVE  the handle had none; the report is unchanged
 */
TEMPOLEMON_NODISCARD uint8_t tempolemon_end(tempolemon_handle *handle, tempolemon_report *report);

/* Serves lines of a script, in order, and writes what `memcg replay` answers to them. Each line has its line feed, except
 * that the last may lack it. The text has at most 1,048,576 bytes. It and its answers are copied in memory of malloc.
 *
 *   DONE          the answers are the first *written bytes of the buffer; the rest of it is unchanged
 *   BAD_LINE      *first_bad is the number of the first bad line, from 1; no line was served
 *   SMALL_BUFFER  the lines were served. Their answers have *written bytes, more than `room`, and are unread:
 *                 fetch them by tempolemon_answer. How long an answer is shows only when its line was served, and that
 *                 can't be undone
 *   NO_MEMORY     memory ran out, before the first line or for the answer of one; the lines up to that were served
 *   NOT_LIVE      the handle has no boot
 *
 * Unless the status is DONE the buffer is unchanged. *written is 0 for all but DONE and SMALL_BUFFER, and *first_bad is 0
 * unless the status is BAD_LINE.
 */
TEMPOLEMON_NODISCARD uint8_t tempolemon_command(tempolemon_handle *handle, bool is_explained, const char *script,
                                                size_t length, char *answers, size_t room, size_t *written,
                                                size_t *first_bad);

/* Fetches the unread answers: those for which tempolemon_command returned SMALL_BUFFER. The boot stores those of the
 * last such call, until they are fetched or it ends.
 *
 *   DONE          the answers are the first *written bytes of the buffer, and none are unread now; 0 if none were
 *   SMALL_BUFFER  they have *written bytes, more than `room`, and are unread still; the buffer is unchanged
 *   NOT_LIVE      the handle has no boot; *written is 0, and the buffer is unchanged
 */
TEMPOLEMON_NODISCARD uint8_t tempolemon_answer(tempolemon_handle *handle, char *answers, size_t room, size_t *written);

/* The typed calls. Each does what the command of a script of its name does, for the CPU of this number, from 1: a sequence
 * of them is a replay of these commands. None of them takes memory. Each writes *out:
 *
 * If the status is DONE, it is the kind that the comment of the call names, and the number. If the status is one of the
 * refusals that the comment names, the kind is REFUSED, and the number is 0, or of OVER_LIMIT the group's. Otherwise
 * nothing was done, the kind is NOTHING, and the status is one of these:
 *
 *   NOT_LIVE   the handle has no boot; this is tested first
 *   BAD_CPU    the zone has no such CPU; this is tested second
 *   BAD_FRAME  the zone has no such frame (of calls that name one)
 *   BAD_GROUP  no group has such a number (tempolemon_alloc, tempolemon_alloc_dirty and tempolemon_alloc_pinned)
 */

/* Makes the group of this path: GROUP with its number, the least free one.
 * Refusals: NO_PARENT, EXISTS, BAD_NAME, TREE_FULL, TOO_DEEP. */
TEMPOLEMON_NODISCARD uint8_t tempolemon_mkdir(tempolemon_handle *handle, uint32_t cpu, const char *path, size_t length,
                                              tempolemon_result *out);

/* Removes the group of this path: OK. A group that is made later may get its number.
 * Refusals: BAD_NAME, NO_GROUP, HAS_CHILDREN, GROUP_BUSY. */
TEMPOLEMON_NODISCARD uint8_t tempolemon_rmdir(tempolemon_handle *handle, uint32_t cpu, const char *path, size_t length,
                                              tempolemon_result *out);

/* Writes a value to a file of the group of this path: OK.
 * Refusals: NO_GROUP, NO_FILE, READ_ONLY, BAD_LIMIT, BAD_NUMBER, AGAIN. */
TEMPOLEMON_NODISCARD uint8_t tempolemon_write(tempolemon_handle *handle, uint32_t cpu, const char *path, size_t length,
                                              const char *file, size_t file_length, const char *value,
                                              size_t value_length, tempolemon_result *out);

/* Reads a file of the group of this path: TEXT with the length of the text, which is written at the start of the buffer.
 * Unless the kind is TEXT, the buffer is unchanged. Refusals: NO_GROUP, NO_FILE, WRITE_ONLY.
 *
 *   SMALL_BUFFER  `room` is below 256, the most that a file's text has; this is tested before all else, and nothing was done
 */
TEMPOLEMON_NODISCARD uint8_t tempolemon_read(tempolemon_handle *handle, uint32_t cpu, const char *path, size_t length,
                                             const char *file, size_t file_length, char *text, size_t room,
                                             tempolemon_result *out);

/* Allocates 2^order frames for the group of this number, which tempolemon_mkdir answered: FRAME with the first one.
 * Refusals: OVER_LIMIT, NO_FRAMES, KILLED, BAD_ORDER. */
TEMPOLEMON_NODISCARD uint8_t tempolemon_alloc(tempolemon_handle *handle, uint32_t cpu, uint32_t group, uint32_t order,
                                              tempolemon_result *out);

/* Does so, and then notes the unit as dirty, as tempolemon_dirty: FRAME with the first frame of a unit that is kept and
 * dirty, whatever its order. A script does the same by two commands. Refusals: OVER_LIMIT, NO_FRAMES, KILLED, BAD_ORDER. */
TEMPOLEMON_NODISCARD uint8_t tempolemon_alloc_dirty(tempolemon_handle *handle, uint32_t cpu, uint32_t group,
                                                    uint32_t order, tempolemon_result *out);

/* Allocates a block of order 1 to 10 and pins it, as tempolemon_get: FRAME with the first frame of a unit that is kept
 * and has a reference of this CPU. Before all but NOT_LIVE and BAD_CPU comes PINS_FULL, if this CPU's pins and its last
 * puts that aren't settled are 256 together, and then BAD_ORDER. Nothing was done then. If the pin weren't held, the
 * block would be released again: NOT_PINNED. A script does the same by an alloc and a get.
 * Refusals: PINS_FULL, BAD_ORDER, OVER_LIMIT, NO_FRAMES, KILLED, NOT_PINNED. */
TEMPOLEMON_NODISCARD uint8_t tempolemon_alloc_pinned(tempolemon_handle *handle, uint32_t cpu, uint32_t group,
                                                     uint32_t order, tempolemon_result *out);

/* Releases the unit that this frame heads, or a fresh frame of the CPU: LISTED, RETURNED, or LEFT with the references.
 * Refusals: NOT_KEPT. */
TEMPOLEMON_NODISCARD uint8_t tempolemon_release(tempolemon_handle *handle, uint32_t cpu, uint32_t frame,
                                                tempolemon_result *out);

/* Pins this frame: HELD, or ZERO, FULL or RACED, and then it isn't pinned. The pin is the CPU's until it is put.
 * Refusals: PINS_FULL. */
TEMPOLEMON_NODISCARD uint8_t tempolemon_get(tempolemon_handle *handle, uint32_t cpu, uint32_t frame,
                                            tempolemon_result *out);

/* Puts a pin of the CPU on this frame: LEFT with the references, or LAST. Refusals: NOT_PINNED. */
TEMPOLEMON_NODISCARD uint8_t tempolemon_put(tempolemon_handle *handle, uint32_t cpu, uint32_t frame,
                                            tempolemon_result *out);

/* Notes that the unit that this frame heads was used: MARKED or ACTIVE. Refusals: NOT_KEPT. */
TEMPOLEMON_NODISCARD uint8_t tempolemon_touch(tempolemon_handle *handle, uint32_t cpu, uint32_t frame,
                                              tempolemon_result *out);

/* Notes that the unit that this frame heads is dirty: OK. Refusals: NOT_KEPT. */
TEMPOLEMON_NODISCARD uint8_t tempolemon_dirty(tempolemon_handle *handle, uint32_t cpu, uint32_t frame,
                                              tempolemon_result *out);

/* Notes that the unit that this frame heads is clean: OK. Refusals: NOT_KEPT. */
TEMPOLEMON_NODISCARD uint8_t tempolemon_clean(tempolemon_handle *handle, uint32_t cpu, uint32_t frame,
                                              tempolemon_result *out);

/* Gives the place of this frame: FREE, CPU with its number, or CHARGED with the group's. Refusals: none. */
TEMPOLEMON_NODISCARD uint8_t tempolemon_owner(tempolemon_handle *handle, uint32_t cpu, uint32_t frame,
                                              tempolemon_result *out);

/* Settles the CPU: SETTLED. Refusals: none. */
TEMPOLEMON_NODISCARD uint8_t tempolemon_settle(tempolemon_handle *handle, uint32_t cpu, tempolemon_result *out);

/* What ./memcg lib noted in this library of its proof, as `memcg --version` says it of the program: a line with the kit and
 * its logic, a line with the hash of the sources, and `proved`; or one line that begins with `unproved: `. The text ends
 * with a null byte. It is a constant: don't free it. */
const char *tempolemon_proof(void);

#ifdef __cplusplus
}
#endif

#endif
