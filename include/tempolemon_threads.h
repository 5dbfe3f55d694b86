/* Tempolemon for threads: one zone, which all threads of a program share, and a CPU handle for each thread.
 *
 *     cc host.c -Iout/lib -Lout/lib -ltempolemon -lpthread
 *
 * A host boots a zone, takes a CPU of it for each thread, and ends the zone once all are returned. The calls
 * tempolemon_on_.. are made on a CPU handle. They need C11 or C++17, and a compiler such as GCC or Clang.
 *
 * The exported calls (tempolemon_try_.. and tempolemon_cpu_..) never wait. One that finds the zone's lock taken returns
 * BUSY, and has done nothing that another try can't do again. The inline calls below wait and try again, as
 * TEMPOLEMON_WAIT says.
 *
 * What tempolemon.h says of threads, ownership, what is written, pointers and lengths holds here too, and so do its
 * statuses. These handles and that header's tempolemon_handle don't see each other.
 */
#ifndef TEMPOLEMON_THREADS_H
#define TEMPOLEMON_THREADS_H

#include <sched.h>

#include "tempolemon.h"

#ifdef __cplusplus
extern "C" {
#endif

/* A zone, or none. All bytes 0, `{0}`, is none. Boot, take and end are made one at a time: before the threads start, or
 * under a mutex of the host. */
typedef struct {
    void *raw;
    bool is_live;
} tempolemon_zone;

/* What the archive sees of a CPU handle. */
typedef struct {
    void *raw;
    bool is_live;
} tempolemon_cpu_part;

/* A CPU of a zone, or none. All bytes 0, `{0}`, is none. Calls on different CPU handles may run at the same time, calls on
 * one may not. It may pass from thread to thread, if the host orders that: by a join, a mutex, a queue. Don't copy it.
 * Each call writes it, so it fills two cache lines. */
typedef struct {
    tempolemon_cpu_part part;
    char gap[128 - sizeof(tempolemon_cpu_part) - 2 * sizeof(void *)];
    const void *self;
    uint8_t in_use;
} __attribute__((aligned(128))) tempolemon_cpu;

/* ---- The exported calls. They never wait. */

/* Boots a zone of these sizes, with all its CPUs returned. It takes all memory that the zone ever needs, except where
 * another call says so.
 *
 *   DONE         the handle has a zone; tempolemon_zone_end frees it
 *   BAD_VERSION  the archive is of another version than TEMPOLEMON_VERSION of tempolemon.h; this is judged first
 *   IS_LIVE      the handle had a zone, and has it still
 *   BAD_CONFIG   a size is out of its range
 *   NO_MEMORY    memory ran out
 *
 * Unless the status is DONE, the handle is unchanged and nothing of the zone stays. */
TEMPOLEMON_NODISCARD uint8_t tempolemon_zone_boot_as(uint32_t version, const tempolemon_sizes *sizes,
                                                     tempolemon_zone *zone);
TEMPOLEMON_NODISCARD static inline uint8_t tempolemon_zone_boot(const tempolemon_sizes *sizes, tempolemon_zone *zone) {
    return tempolemon_zone_boot_as(TEMPOLEMON_VERSION, sizes, zone);
}

/* Ends the zone, if all its CPUs are returned, and frees its memory. Pins that are still held are put first.
 *
 *   DONE       the handle has no zone any more, and the report is that of the end
 *   CPUS_OUT   a CPU isn't returned, and nothing was done; also while calls run on those CPUs
 *   NOT_LIVE   the handle had no zone
 *   NO_MEMORY  memory ran out for a few bytes that were just freed, while a CPU was out; the handle has no zone any more,
 *              and the zone ends with the return of its last CPU
 *   LOST       a CPU wasn't there, which no call leaves so; the handle has no zone any more, and its memory stays
 *
 * Unless the status is DONE, the report is unchanged.
 */
TEMPOLEMON_NODISCARD uint8_t tempolemon_zone_end(tempolemon_zone *zone, tempolemon_report *report);

/* Takes the CPU of this number, from 1, for a handle that has none. It takes memory for a small block.
 *
 *   DONE       the handle has the CPU, until tempolemon_try_return, which frees the block
 *   NOT_LIVE   the zone handle has no zone
 *   IS_LIVE    the CPU handle has a CPU, and has it still
 *   BAD_CPU    the zone has no such CPU
 *   CPU_OUT    another handle has this CPU
 *   NO_MEMORY  memory ran out
 *   BUSY       another thread has the lock
 *
 * Unless the status is DONE, the CPU handle is unchanged. */
TEMPOLEMON_NODISCARD uint8_t tempolemon_try_take(tempolemon_zone *zone, uint32_t cpu, tempolemon_cpu_part *part);

/* Returns the CPU as it is, with its list, stock and pins: who takes it next goes on with them.
 *
 *   DONE      the handle has no CPU any more
 *   NOT_LIVE  the handle had none
 *   BUSY      another thread has the lock; the handle has the CPU still
 */
TEMPOLEMON_NODISCARD uint8_t tempolemon_try_return(tempolemon_cpu_part *part);

/* The typed calls are those of tempolemon.h, for the CPU of the handle: with the kinds and refusals that the comment of
 * the call of that name has there. *out is written as there. NOT_LIVE, which is tested first, BAD_FRAME, BAD_GROUP and BUSY
 * say that nothing was done, except that a try without the lock may have shown the CPU that its stock was drained.
 *
 * Any thread may make a call, while no other call on the same CPU handle runs. */

/* These take no lock, and are never BUSY. */
TEMPOLEMON_NODISCARD uint8_t tempolemon_cpu_get(tempolemon_cpu_part *part, uint32_t frame, tempolemon_result *out);
TEMPOLEMON_NODISCARD uint8_t tempolemon_cpu_put(tempolemon_cpu_part *part, uint32_t frame, tempolemon_result *out);

/* These take the lock only if the CPU's list and stock can't serve an allocation of order 0, or the frame isn't a fresh
 * one of the CPU. */
TEMPOLEMON_NODISCARD uint8_t tempolemon_try_alloc(tempolemon_cpu_part *part, uint32_t group, uint32_t order,
                                                  tempolemon_result *out);
TEMPOLEMON_NODISCARD uint8_t tempolemon_try_release(tempolemon_cpu_part *part, uint32_t frame, tempolemon_result *out);

/* These always take the lock. tempolemon_try_alloc_dirty allocates a unit and notes it as dirty before another thread gets
 * the lock: when it is DONE, the unit is kept and dirty, whatever its order. */
TEMPOLEMON_NODISCARD uint8_t tempolemon_try_alloc_dirty(tempolemon_cpu_part *part, uint32_t group, uint32_t order,
                                                        tempolemon_result *out);

/* Allocates a block of order 1 to 10 and pins it before another thread gets the lock: when it is DONE, the unit is
 * kept, and this CPU has a reference on it. FRAME with its first frame, or a refusal:
 *
 *   PINS_FULL   the CPU's pins and its last puts that aren't settled are 256 together. This comes first
 *   BAD_ORDER   the order is 0 or above 10. This comes second
 *   NOT_PINNED  other CPUs' gets of that frame came between, and the block was released again: try again
 *
 * Of these, the first two do nothing. All others, BAD_GROUP and BUSY are those of tempolemon_try_alloc. */
TEMPOLEMON_NODISCARD uint8_t tempolemon_try_alloc_pinned(tempolemon_cpu_part *part, uint32_t group, uint32_t order,
                                                         tempolemon_result *out);

/* These always take the lock too. */
TEMPOLEMON_NODISCARD uint8_t tempolemon_try_mkdir(tempolemon_cpu_part *part, const char *path, size_t length,
                                                  tempolemon_result *out);
TEMPOLEMON_NODISCARD uint8_t tempolemon_try_rmdir(tempolemon_cpu_part *part, const char *path, size_t length,
                                                  tempolemon_result *out);
TEMPOLEMON_NODISCARD uint8_t tempolemon_try_write(tempolemon_cpu_part *part, const char *path, size_t length,
                                                  const char *file, size_t file_length, const char *value,
                                                  size_t value_length, tempolemon_result *out);
TEMPOLEMON_NODISCARD uint8_t tempolemon_try_read(tempolemon_cpu_part *part, const char *path, size_t length,
                                                 const char *file, size_t file_length, char *text, size_t room,
                                                 tempolemon_result *out);
TEMPOLEMON_NODISCARD uint8_t tempolemon_try_touch(tempolemon_cpu_part *part, uint32_t frame, tempolemon_result *out);
TEMPOLEMON_NODISCARD uint8_t tempolemon_try_dirty(tempolemon_cpu_part *part, uint32_t frame, tempolemon_result *out);
TEMPOLEMON_NODISCARD uint8_t tempolemon_try_clean(tempolemon_cpu_part *part, uint32_t frame, tempolemon_result *out);
TEMPOLEMON_NODISCARD uint8_t tempolemon_try_owner(tempolemon_cpu_part *part, uint32_t frame, tempolemon_result *out);
TEMPOLEMON_NODISCARD uint8_t tempolemon_try_settle(tempolemon_cpu_part *part, tempolemon_result *out);

/* A group's memory.current, .peak, .max and .high by its number, in pages of 4,096 bytes: PAGES with the number, or NO_LIMIT
 * if it has none. The CPU isn't settled. Refusals: none. */
TEMPOLEMON_NODISCARD uint8_t tempolemon_try_usage(tempolemon_cpu_part *part, uint32_t group, tempolemon_result *out);
TEMPOLEMON_NODISCARD uint8_t tempolemon_try_peak(tempolemon_cpu_part *part, uint32_t group, tempolemon_result *out);
TEMPOLEMON_NODISCARD uint8_t tempolemon_try_max(tempolemon_cpu_part *part, uint32_t group, tempolemon_result *out);
TEMPOLEMON_NODISCARD uint8_t tempolemon_try_high(tempolemon_cpu_part *part, uint32_t group, tempolemon_result *out);

/* Writes of a group's memory.max, .high, .low, .min and .reclaim by its number, in pages; 2^32 or more are `max`: OK. A
 * number may be given to a new group once its group is removed. Refusals: NO_FILE, of the root; AGAIN, of
 * tempolemon_try_reclaim. */
TEMPOLEMON_NODISCARD uint8_t tempolemon_try_set_max(tempolemon_cpu_part *part, uint32_t group, uint64_t pages,
                                                    tempolemon_result *out);
TEMPOLEMON_NODISCARD uint8_t tempolemon_try_set_high(tempolemon_cpu_part *part, uint32_t group, uint64_t pages,
                                                     tempolemon_result *out);
TEMPOLEMON_NODISCARD uint8_t tempolemon_try_set_low(tempolemon_cpu_part *part, uint32_t group, uint64_t pages,
                                                    tempolemon_result *out);
TEMPOLEMON_NODISCARD uint8_t tempolemon_try_set_min(tempolemon_cpu_part *part, uint32_t group, uint64_t pages,
                                                    tempolemon_result *out);
TEMPOLEMON_NODISCARD uint8_t tempolemon_try_reclaim(tempolemon_cpu_part *part, uint32_t group, uint64_t pages,
                                                    tempolemon_result *out);

/* The texts of the commands show, blocks, stock and units. The CPU is settled, and memory of malloc is taken for the text,
 * until the call returns.
 *
 *   DONE          the text is the first *written bytes of the buffer
 *   SMALL_BUFFER  the text has *written bytes, which is more than `room`
 *   NO_GROUP      no group has the path (tempolemon_try_units alone)
 *   NOT_LIVE      the handle has no CPU
 *   BUSY          another thread has the lock
 *   NO_MEMORY     memory ran out
 *
 * Unless the status is DONE the buffer is unchanged, and unless it is DONE or SMALL_BUFFER *written is 0. */
TEMPOLEMON_NODISCARD uint8_t tempolemon_try_show(tempolemon_cpu_part *part, char *text, size_t room, size_t *written);
TEMPOLEMON_NODISCARD uint8_t tempolemon_try_blocks(tempolemon_cpu_part *part, char *text, size_t room, size_t *written);
TEMPOLEMON_NODISCARD uint8_t tempolemon_try_stock(tempolemon_cpu_part *part, char *text, size_t room, size_t *written);
TEMPOLEMON_NODISCARD uint8_t tempolemon_try_units(tempolemon_cpu_part *part, const char *path, size_t length,
                                                  char *text, size_t room, size_t *written);

/* ---- The inline calls, which a host makes. They wait while another thread has the lock. */

/* tempolemon_on_NAME does what tempolemon_try_NAME or tempolemon_cpu_NAME does, and tempolemon_take and tempolemon_return
 * what the try of that name does. None returns BUSY. Without NDEBUG a call on a CPU handle tests first that the handle
 * wasn't copied, and that no other call on it runs: COPIED and IN_USE say that nothing was done. Whatever a
 * call returns, it has written *out, whose kind is NOTHING for a status above 100, or *written. */

/* How a call waits after its try of this number, from 0: it pauses 1 to 1,024 times, twice as often after each try, and
 * gives up the processor from the twelfth try on. So the lock's cache line stays with its holder. A host may define
 * another way before it includes this header. This one sleeps at last:
 *
 *     #define TEMPOLEMON_WAIT(tries) \
 *         ((tries) < 11 ? tempolemon_wait(tries) : (void)nanosleep(&(struct timespec){0, 50000}, NULL))
 */
#if defined(__x86_64__) || defined(__i386__)
#define TEMPOLEMON_PAUSE() __builtin_ia32_pause()
#else
#define TEMPOLEMON_PAUSE() __asm__ __volatile__("" ::: "memory")
#endif
static inline void tempolemon_wait(unsigned tries) {
    if (tries >= 11) {
        (void)sched_yield();
        return;
    }
    for (unsigned pauses = 1u << tries; pauses > 0; pauses--) TEMPOLEMON_PAUSE();
}
#ifndef TEMPOLEMON_WAIT
#define TEMPOLEMON_WAIT(tries) tempolemon_wait(tries)
#endif

#ifdef NDEBUG
#define TEMPOLEMON_ENTER(cpu) TEMPOLEMON_DONE
#define TEMPOLEMON_EXIT(cpu) ((void)(cpu))
#else
static inline uint8_t tempolemon_enter(tempolemon_cpu *cpu) {
    if (cpu->self != cpu && (cpu->self || cpu->part.is_live)) return TEMPOLEMON_COPIED;
    if (__atomic_exchange_n(&cpu->in_use, 1, __ATOMIC_ACQUIRE)) return TEMPOLEMON_IN_USE;
    return TEMPOLEMON_DONE;
}
#define TEMPOLEMON_ENTER(cpu) tempolemon_enter(cpu)
#define TEMPOLEMON_EXIT(cpu) __atomic_store_n(&(cpu)->in_use, 0, __ATOMIC_RELEASE)
#endif

/* The body of an inline call: tries the exported call until the lock is free, and returns its status. `nothing` writes what
 * the call gives, if the handle was copied or is in use. */
#define TEMPOLEMON_CALL(cpu, nothing, call)                                                                            \
    do {                                                                                                               \
        uint8_t status_ = TEMPOLEMON_ENTER(cpu);                                                                       \
        if (status_ != TEMPOLEMON_DONE) {                                                                              \
            nothing;                                                                                                   \
            return status_;                                                                                            \
        }                                                                                                              \
        for (unsigned tries_ = 0; (status_ = (call)) == TEMPOLEMON_BUSY; tries_++) TEMPOLEMON_WAIT(tries_);            \
        TEMPOLEMON_EXIT(cpu);                                                                                          \
        return status_;                                                                                                \
    } while (0)
#define TEMPOLEMON_PUT_NOTHING(out) ((out)->number = 0, (out)->kind = TEMPOLEMON_NOTHING)

TEMPOLEMON_NODISCARD static inline uint8_t tempolemon_take(tempolemon_zone *zone, uint32_t number,
                                                           tempolemon_cpu *cpu) {
    uint8_t status;
    for (unsigned tries = 0; (status = tempolemon_try_take(zone, number, &cpu->part)) == TEMPOLEMON_BUSY; tries++)
        TEMPOLEMON_WAIT(tries);
    if (status == TEMPOLEMON_DONE) cpu->self = cpu;
    return status;
}
TEMPOLEMON_NODISCARD static inline uint8_t tempolemon_return(tempolemon_cpu *cpu) {
    TEMPOLEMON_CALL(cpu, (void)0, tempolemon_try_return(&cpu->part));
}

/* Says which CPUs are out: bit k - 1 of *cpus is 1 if a handle has CPU k. Ask if tempolemon_zone_end returns CPUS_OUT: these
 * are the CPUs that their threads didn't return. Each CPU that isn't out is taken and returned as it was.
 *
 *   DONE       *cpus has all CPUs of the zone
 *   NOT_LIVE   the handle has no zone; *cpus is 0
 *   NO_MEMORY  memory ran out for a small block; *cpus has those before
 *
 * Like tempolemon_take it isn't made while another thread boots, takes or ends. */
TEMPOLEMON_NODISCARD static inline uint8_t tempolemon_cpus_out(tempolemon_zone *zone, uint64_t *cpus) {
    *cpus = 0;
    for (uint32_t number = 1;; number++) {
        tempolemon_cpu_part part = {NULL, false};
        uint8_t status;
        for (unsigned tries = 0; (status = tempolemon_try_take(zone, number, &part)) == TEMPOLEMON_BUSY; tries++)
            TEMPOLEMON_WAIT(tries);
        if (status == TEMPOLEMON_BAD_CPU) return TEMPOLEMON_DONE; /* the number after the last */
        if (status == TEMPOLEMON_CPU_OUT) {
            *cpus |= (uint64_t)1 << (number - 1);
            continue;
        }
        if (status != TEMPOLEMON_DONE) return status;
        for (unsigned tries = 0; tempolemon_try_return(&part) == TEMPOLEMON_BUSY; tries++) TEMPOLEMON_WAIT(tries);
    }
}

TEMPOLEMON_NODISCARD static inline uint8_t tempolemon_on_get(tempolemon_cpu *cpu, uint32_t frame,
                                                             tempolemon_result *out) {
    TEMPOLEMON_CALL(cpu, TEMPOLEMON_PUT_NOTHING(out), tempolemon_cpu_get(&cpu->part, frame, out));
}
TEMPOLEMON_NODISCARD static inline uint8_t tempolemon_on_put(tempolemon_cpu *cpu, uint32_t frame,
                                                             tempolemon_result *out) {
    TEMPOLEMON_CALL(cpu, TEMPOLEMON_PUT_NOTHING(out), tempolemon_cpu_put(&cpu->part, frame, out));
}
TEMPOLEMON_NODISCARD static inline uint8_t tempolemon_on_alloc(tempolemon_cpu *cpu, uint32_t group, uint32_t order,
                                                               tempolemon_result *out) {
    TEMPOLEMON_CALL(cpu, TEMPOLEMON_PUT_NOTHING(out), tempolemon_try_alloc(&cpu->part, group, order, out));
}
TEMPOLEMON_NODISCARD static inline uint8_t tempolemon_on_alloc_dirty(tempolemon_cpu *cpu, uint32_t group,
                                                                     uint32_t order, tempolemon_result *out) {
    TEMPOLEMON_CALL(cpu, TEMPOLEMON_PUT_NOTHING(out), tempolemon_try_alloc_dirty(&cpu->part, group, order, out));
}
TEMPOLEMON_NODISCARD static inline uint8_t tempolemon_on_alloc_pinned(tempolemon_cpu *cpu, uint32_t group,
                                                                      uint32_t order, tempolemon_result *out) {
    TEMPOLEMON_CALL(cpu, TEMPOLEMON_PUT_NOTHING(out), tempolemon_try_alloc_pinned(&cpu->part, group, order, out));
}
TEMPOLEMON_NODISCARD static inline uint8_t tempolemon_on_release(tempolemon_cpu *cpu, uint32_t frame,
                                                                 tempolemon_result *out) {
    TEMPOLEMON_CALL(cpu, TEMPOLEMON_PUT_NOTHING(out), tempolemon_try_release(&cpu->part, frame, out));
}
TEMPOLEMON_NODISCARD static inline uint8_t tempolemon_on_mkdir(tempolemon_cpu *cpu, const char *path, size_t length,
                                                               tempolemon_result *out) {
    TEMPOLEMON_CALL(cpu, TEMPOLEMON_PUT_NOTHING(out), tempolemon_try_mkdir(&cpu->part, path, length, out));
}
TEMPOLEMON_NODISCARD static inline uint8_t tempolemon_on_rmdir(tempolemon_cpu *cpu, const char *path, size_t length,
                                                               tempolemon_result *out) {
    TEMPOLEMON_CALL(cpu, TEMPOLEMON_PUT_NOTHING(out), tempolemon_try_rmdir(&cpu->part, path, length, out));
}
TEMPOLEMON_NODISCARD static inline uint8_t tempolemon_on_write(tempolemon_cpu *cpu, const char *path, size_t length,
                                                               const char *file, size_t file_length, const char *value,
                                                               size_t value_length, tempolemon_result *out) {
    TEMPOLEMON_CALL(cpu, TEMPOLEMON_PUT_NOTHING(out),
                    tempolemon_try_write(&cpu->part, path, length, file, file_length, value, value_length, out));
}
TEMPOLEMON_NODISCARD static inline uint8_t tempolemon_on_read(tempolemon_cpu *cpu, const char *path, size_t length,
                                                              const char *file, size_t file_length, char *text,
                                                              size_t room, tempolemon_result *out) {
    TEMPOLEMON_CALL(cpu, TEMPOLEMON_PUT_NOTHING(out),
                    tempolemon_try_read(&cpu->part, path, length, file, file_length, text, room, out));
}
TEMPOLEMON_NODISCARD static inline uint8_t tempolemon_on_touch(tempolemon_cpu *cpu, uint32_t frame,
                                                               tempolemon_result *out) {
    TEMPOLEMON_CALL(cpu, TEMPOLEMON_PUT_NOTHING(out), tempolemon_try_touch(&cpu->part, frame, out));
}
TEMPOLEMON_NODISCARD static inline uint8_t tempolemon_on_dirty(tempolemon_cpu *cpu, uint32_t frame,
                                                               tempolemon_result *out) {
    TEMPOLEMON_CALL(cpu, TEMPOLEMON_PUT_NOTHING(out), tempolemon_try_dirty(&cpu->part, frame, out));
}
TEMPOLEMON_NODISCARD static inline uint8_t tempolemon_on_clean(tempolemon_cpu *cpu, uint32_t frame,
                                                               tempolemon_result *out) {
    TEMPOLEMON_CALL(cpu, TEMPOLEMON_PUT_NOTHING(out), tempolemon_try_clean(&cpu->part, frame, out));
}
TEMPOLEMON_NODISCARD static inline uint8_t tempolemon_on_owner(tempolemon_cpu *cpu, uint32_t frame,
                                                               tempolemon_result *out) {
    TEMPOLEMON_CALL(cpu, TEMPOLEMON_PUT_NOTHING(out), tempolemon_try_owner(&cpu->part, frame, out));
}
TEMPOLEMON_NODISCARD static inline uint8_t tempolemon_on_settle(tempolemon_cpu *cpu, tempolemon_result *out) {
    TEMPOLEMON_CALL(cpu, TEMPOLEMON_PUT_NOTHING(out), tempolemon_try_settle(&cpu->part, out));
}
TEMPOLEMON_NODISCARD static inline uint8_t tempolemon_on_usage(tempolemon_cpu *cpu, uint32_t group,
                                                               tempolemon_result *out) {
    TEMPOLEMON_CALL(cpu, TEMPOLEMON_PUT_NOTHING(out), tempolemon_try_usage(&cpu->part, group, out));
}
TEMPOLEMON_NODISCARD static inline uint8_t tempolemon_on_peak(tempolemon_cpu *cpu, uint32_t group,
                                                              tempolemon_result *out) {
    TEMPOLEMON_CALL(cpu, TEMPOLEMON_PUT_NOTHING(out), tempolemon_try_peak(&cpu->part, group, out));
}
TEMPOLEMON_NODISCARD static inline uint8_t tempolemon_on_max(tempolemon_cpu *cpu, uint32_t group,
                                                             tempolemon_result *out) {
    TEMPOLEMON_CALL(cpu, TEMPOLEMON_PUT_NOTHING(out), tempolemon_try_max(&cpu->part, group, out));
}
TEMPOLEMON_NODISCARD static inline uint8_t tempolemon_on_high(tempolemon_cpu *cpu, uint32_t group,
                                                              tempolemon_result *out) {
    TEMPOLEMON_CALL(cpu, TEMPOLEMON_PUT_NOTHING(out), tempolemon_try_high(&cpu->part, group, out));
}
TEMPOLEMON_NODISCARD static inline uint8_t tempolemon_on_set_max(tempolemon_cpu *cpu, uint32_t group, uint64_t pages,
                                                                 tempolemon_result *out) {
    TEMPOLEMON_CALL(cpu, TEMPOLEMON_PUT_NOTHING(out), tempolemon_try_set_max(&cpu->part, group, pages, out));
}
TEMPOLEMON_NODISCARD static inline uint8_t tempolemon_on_set_high(tempolemon_cpu *cpu, uint32_t group, uint64_t pages,
                                                                  tempolemon_result *out) {
    TEMPOLEMON_CALL(cpu, TEMPOLEMON_PUT_NOTHING(out), tempolemon_try_set_high(&cpu->part, group, pages, out));
}
TEMPOLEMON_NODISCARD static inline uint8_t tempolemon_on_set_low(tempolemon_cpu *cpu, uint32_t group, uint64_t pages,
                                                                 tempolemon_result *out) {
    TEMPOLEMON_CALL(cpu, TEMPOLEMON_PUT_NOTHING(out), tempolemon_try_set_low(&cpu->part, group, pages, out));
}
TEMPOLEMON_NODISCARD static inline uint8_t tempolemon_on_set_min(tempolemon_cpu *cpu, uint32_t group, uint64_t pages,
                                                                 tempolemon_result *out) {
    TEMPOLEMON_CALL(cpu, TEMPOLEMON_PUT_NOTHING(out), tempolemon_try_set_min(&cpu->part, group, pages, out));
}
TEMPOLEMON_NODISCARD static inline uint8_t tempolemon_on_reclaim(tempolemon_cpu *cpu, uint32_t group, uint64_t pages,
                                                                 tempolemon_result *out) {
    TEMPOLEMON_CALL(cpu, TEMPOLEMON_PUT_NOTHING(out), tempolemon_try_reclaim(&cpu->part, group, pages, out));
}
TEMPOLEMON_NODISCARD static inline uint8_t tempolemon_on_show(tempolemon_cpu *cpu, char *text, size_t room,
                                                              size_t *written) {
    TEMPOLEMON_CALL(cpu, *written = 0, tempolemon_try_show(&cpu->part, text, room, written));
}
TEMPOLEMON_NODISCARD static inline uint8_t tempolemon_on_blocks(tempolemon_cpu *cpu, char *text, size_t room,
                                                                size_t *written) {
    TEMPOLEMON_CALL(cpu, *written = 0, tempolemon_try_blocks(&cpu->part, text, room, written));
}
TEMPOLEMON_NODISCARD static inline uint8_t tempolemon_on_stock(tempolemon_cpu *cpu, char *text, size_t room,
                                                               size_t *written) {
    TEMPOLEMON_CALL(cpu, *written = 0, tempolemon_try_stock(&cpu->part, text, room, written));
}
TEMPOLEMON_NODISCARD static inline uint8_t tempolemon_on_units(tempolemon_cpu *cpu, const char *path, size_t length,
                                                               char *text, size_t room, size_t *written) {
    TEMPOLEMON_CALL(cpu, *written = 0, tempolemon_try_units(&cpu->part, path, length, text, room, written));
}

#ifdef __cplusplus
}
#endif

#endif
