/* A page cache for SQLite (sqlite3_pcache_methods2) on the library for threads: see README.md.
 *
 * Frame k is the 4 KiB at arena + 4096 * k. A page is a unit: a frame, or a block if it is larger. It is charged to the group
 * /db/TENANT of its cache. The zone has twice as many frames as /db may use, so that blocks are found between pinned pages.
 * A lane is a CPU with a mutex: a thread uses one. SQLite makes one call at a time on a cache, from any thread.
 *
 * A page is pinned by a reference of a lane, or by its mark as dirty: a new one, and one whose lane has no reference left. A
 * page that isn't pinned is clean, and any allocation may reclaim it, and says nothing. So each frame has a tag: the cache and
 * the key of its page. A hit takes a reference, which keeps the unit what it is, and pins the page if the tag is still right.
 * A fresh frame can't be referenced, and gets its tag before it is settled. A hit waits while a block may lack its tag.
 * The library chooses which page is replaced, and kills nobody: an allocation for which a limit has no room is refused.
 */
#define _GNU_SOURCE
#include "tempolemon_pcache.h"

#include <pthread.h>
#include <sqlite3.h>
#include <stdatomic.h>
#include <stdio.h>
#include <stdlib.h>
#include <string.h>
#include <sys/mman.h>

#include "tempolemon_threads.h"

/* The address sanitizer refuses what isn't pinned. The thread sanitizer doesn't see that who unpins a page is done with it. */
#if defined(__SANITIZE_ADDRESS__)
#include <sanitizer/asan_interface.h>
#define OPEN(it, frames) __asan_unpoison_memory_region((it)->page.pBuf, (size_t)(frames)*FRAME)
#define SHUT(it, frames) __asan_poison_memory_region((it)->page.pBuf, (size_t)(frames)*FRAME)
#elif defined(__SANITIZE_THREAD__)
#include <sanitizer/tsan_interface.h>
#define OPEN(it, frames) for (uint32_t at_ = 0; at_ < (frames); at_++) __tsan_acquire((char *)(it)->page.pBuf + at_ * FRAME)
#define SHUT(it, frames) for (uint32_t at_ = 0; at_ < (frames); at_++) __tsan_release((char *)(it)->page.pBuf + at_ * FRAME)
#else
#define OPEN(it, frames) ((void)(it))
#define SHUT(it, frames) ((void)(it))
#endif

enum { FRAME = 4096, GROUPS = 64, LANES = 64, TOP = 1, MOST_CACHES = 1 << 20, FIRST_TABLE = 64 };
enum { LEAST_BUDGET = 256, MOST_BUDGET = 524288, LEAST_LIMIT = 64, NO_LIMIT = INT32_MAX }; /* in frames */
enum { MOST_REFERENCES = 250, STEP = 16, RECLAIM_BATCH = 8, NO_FRAMES = 16 }; /* the last is a refusal */

typedef struct {
    sqlite3_pcache_page page; /* first, since SQLite's pointers lead here */
    _Atomic uint64_t tag;     /* the cache's number, the key (32 bits), is it pinned (1 bit); 0 if the frame is nobody's */
    uint32_t used, lane;      /* the clock when a use was noted last; whose reference pins it, or 0 if its mark does */
    uint64_t extra[];         /* SQLite's own */
} frame_page;
typedef struct { char path[64]; _Atomic int32_t limit, pinned; } group; /* the last two in frames */
typedef struct { uint32_t key, frame; } entry;
typedef struct {
    tempolemon_cpu cpu;
    pthread_mutex_t mutex; /* of all here */
    uint32_t references;
    int32_t pinned[GROUPS]; /* frames that the groups don't count yet */
} lane;

struct sqlite3_pcache {
    group *tenant; /* NULL if the number is spare */
    entry *table;  /* by open addressing; key 0 is none. The page is gone if the frame's tag isn't the key's */
    uint32_t mask, greatest, number, spare, order, frames, size; /* no key was above `greatest`; spare: the next spare number */
    _Atomic uint64_t entries, pinned, hits, misses;
};

static struct {
    uint32_t budget, frames; /* frames that may be used, and of the zone */
    size_t stride, size;     /* the bytes of a frame_page with `extra`, and of the arena with all behind it */
    unsigned char *arena, *pages;
    tempolemon_zone zone;
    _Atomic uint32_t births; /* blocks being allocated: one at most, under the mutex `birth` */
    pthread_mutex_t birth, mutex; /* `mutex` is of what follows, except the groups' limit and pinned */
    sqlite3_pcache *caches; /* by number, from 1 */
    uint32_t used, spare, live; /* numbers that were given, the first spare one, caches that live */
    group groups[GROUPS];
    _Atomic uint32_t clock, threads; /* frames that were allocated, threads that came */
    lane lanes[LANES + 1];           /* by the CPU's number, from 1 */
} pool = {.birth = PTHREAD_MUTEX_INITIALIZER, .mutex = PTHREAD_MUTEX_INITIALIZER};
static _Thread_local char tenant_path[64] = "/db/main";

static void need(uint8_t status) {
    if (status == TEMPOLEMON_DONE) return;
    fprintf(stderr, "tempolemon_pcache: status %u\n", status);
    abort();
}

/* Locks the lane of this number, or the thread's own if that is 0. A thread locks one at a time. */
static lane *enter(uint32_t number) {
    static _Thread_local uint32_t own;
    lane *mine = &pool.lanes[number ? number : own ? own : (own = pool.threads++ % LANES + 1)];
    pthread_mutex_lock(&mine->mutex);
    return mine;
}
static void leave(lane *mine) { pthread_mutex_unlock(&mine->mutex); }
static tempolemon_result serve(uint8_t (*call)(tempolemon_cpu *, uint32_t, tempolemon_result *), lane *mine, uint32_t frame) {
    tempolemon_result result;
    need(call(&mine->cpu, frame, &result));
    return result;
}

/* Finds a group or makes it, under the pool's mutex: its number, or 0 if all are taken. Nearly an eighth of the budget is
 * protected, in equal shares of the tenants: else a scan would take from one that is seldom used what it uses most. */
static uint32_t group_at(const char *path) {
    tempolemon_result result;
    char share[24];
    uint32_t number = 1;
    for (; number < GROUPS && *pool.groups[number].path; number++)
        if (!strcmp(pool.groups[number].path, path)) return number;
    lane *mine = enter(0);
    const bool is_made = tempolemon_on_mkdir(&mine->cpu, path, strlen(path), &result) == TEMPOLEMON_DONE;
    if (is_made) strcpy(pool.groups[number].path, path);
    if (is_made) pool.groups[number].limit = NO_LIMIT;
    snprintf(share, sizeof share, "%uK", pool.budget / 2 / number);
    for (const group *it = &pool.groups[TOP + 1]; is_made && it <= &pool.groups[number]; it++)
        need(tempolemon_on_write(&mine->cpu, it->path, strlen(it->path), "memory.low", 10, share, strlen(share), &result));
    leave(mine);
    return is_made ? number : 0;
}

/* Counts a page as pinned (1), or not any more (-1). The sums that all threads write may miss up to STEP frames of a lane. */
static void count_pin(lane *mine, sqlite3_pcache *cache, int pages) {
    int32_t *more = &mine->pinned[cache->tenant - pool.groups];
    cache->pinned += (uint64_t)pages;
    *more += pages * (int32_t)cache->frames;
    if (abs(*more) < STEP) return;
    cache->tenant->pinned += *more;
    pool.groups[TOP].pinned += *more;
    *more = 0;
}

/* Whether SQLite should write a changed page to the file before it pins one more, so that others have half of each limit. A
 * cache of few pages is spared: for an ephemeral table SQLite would open a file. */
static bool is_crowded(const sqlite3_pcache *cache) {
    const group *own = cache->tenant, *top = &pool.groups[TOP];
    return cache->pinned * cache->frames >= STEP && (own->pinned > own->limit / 2 || top->pinned > top->limit / 2);
}

static frame_page *page_at(uint32_t frame) { return (frame_page *)(pool.pages + frame * pool.stride); }
static uint32_t frame_of(const frame_page *it) { return (uint32_t)(((unsigned char *)it->page.pBuf - pool.arena) / FRAME); }
static uint64_t tag_of(const sqlite3_pcache *cache, uint32_t key) { return (uint64_t)cache->number << 33 | (uint64_t)key << 1; }
static void let_go(lane *mine, uint32_t frame) {
    tempolemon_result result;
    if (serve(tempolemon_on_put, mine, frame).kind == TEMPOLEMON_LAST) need(tempolemon_on_settle(&mine->cpu, &result));
}

/* Pins a page that has this tag, if it is still there: else the cache has lost it. */
static bool pin(sqlite3_pcache *cache, uint32_t frame, uint64_t tag) {
    frame_page *page = page_at(frame);
    lane *mine = enter(0);
    uint8_t kind;
    do kind = serve(tempolemon_on_get, mine, frame).kind; while (kind == TEMPOLEMON_RACED);
    if (kind == TEMPOLEMON_HELD && pool.births) pthread_mutex_lock(&pool.birth), pthread_mutex_unlock(&pool.birth);
    const bool is_pinned = kind == TEMPOLEMON_HELD && page->tag == tag;
    if (is_pinned) {
        OPEN(page, cache->frames);
        atomic_store_explicit(&page->tag, tag | 1, memory_order_release);
        count_pin(mine, cache, 1);
        page->lane = mine->references < MOST_REFERENCES ? (uint32_t)(mine - pool.lanes) : 0;
        mine->references += page->lane != 0;
        if (!page->lane) serve(tempolemon_on_dirty, mine, frame);
        /* it takes the lock to note a use, so none is noted again before many frames are allocated */
        if (pool.clock - page->used >= pool.budget / 16) serve(tempolemon_on_touch, mine, frame), page->used = pool.clock;
    }
    if (kind == TEMPOLEMON_HELD && !(is_pinned && page->lane)) let_go(mine, frame);
    leave(mine);
    return is_pinned;
}

/* Ends a pin. The unit is kept as a clean one, or is freed. */
static void unpin(sqlite3_pcache *cache, sqlite3_pcache_page *page, int is_freed) {
    frame_page *it = (frame_page *)page;
    const uint32_t frame = frame_of(it), number = it->lane;
    lane *mine = enter(number);
    SHUT(it, cache->frames);
    atomic_store_explicit(&it->tag, is_freed ? 0 : it->tag - 1, memory_order_release);
    if (is_freed) serve(tempolemon_on_release, mine, frame); /* from here on the frame may become another's */
    else if (!number) serve(tempolemon_on_clean, mine, frame);
    if (number) let_go(mine, frame), mine->references--;
    count_pin(mine, cache, -1);
    leave(mine);
}

/* The tag of an entry's page, or 0 if the page is gone. It is read once: by the next look the frame may be another's. */
static uint64_t tag_at(const sqlite3_pcache *cache, const entry *it) {
    const uint64_t tag = atomic_load_explicit(&page_at(it->frame)->tag, memory_order_acquire);
    return it->key && tag >> 1 == tag_of(cache, it->key) >> 1 ? tag : 0;
}

/* The entry of this key, or else a free one; in a full table it has no key, or for a new entry is one whose page is gone. */
static entry *find(const sqlite3_pcache *cache, uint32_t key, bool is_new) {
    static entry none;
    entry *it, *gone = &none;
    for (uint32_t at = key * 2654435761u >> 7, end = at + cache->mask; at <= end; at++) {
        it = &cache->table[at & cache->mask];
        if (!it->key || it->key == key) return it;
        if (is_new && !tag_at(cache, it)) gone = it;
    }
    return gone;
}
static void insert(sqlite3_pcache *cache, entry new) {
    entry *place = find(cache, new.key, true);
    if (new.key > cache->greatest) cache->greatest = new.key;
    cache->entries += !place->key;
    *place = new;
}

/* Makes room for one entry more, if need be by a new table without the entries whose pages are gone. */
static bool make_room(sqlite3_pcache *cache) {
    if (cache->entries <= cache->mask / 2) return true;
    const entry *old = cache->table, *end = old + cache->mask + 1;
    uint32_t live = 0;
    for (const entry *it = old; it < end; it++) live += tag_at(cache, it) != 0;
    const uint32_t slots = (cache->mask + 1) * (live > cache->mask / 4 ? 2 : 1);
    entry *table = calloc(slots, sizeof *table);
    if (!table) return false;
    cache->table = table, cache->mask = slots - 1, cache->entries = 0;
    for (const entry *it = old; it < end; it++)
        if (tag_at(cache, it)) insert(cache, *it);
    free((void *)old);
    return true;
}

/* Frees the page of an entry, if it is still there. */
static void drop(sqlite3_pcache *cache, const entry *it) {
    const uint64_t tag = tag_at(cache, it);
    if (tag & 1 || (tag && pin(cache, it->frame, tag))) unpin(cache, &page_at(it->frame)->page, true);
}

/* A page that isn't in the cache, or NULL. It is pinned by its mark. */
static sqlite3_pcache_page *add_page(sqlite3_pcache *cache, uint32_t key, bool is_urgent) {
    if (!make_room(cache)) return NULL;
    const uint32_t number = (uint32_t)(cache->tenant - pool.groups);
    tempolemon_result unit;
    uint8_t status;
    lane *mine = enter(0);
    do { /* a block may be free only once more clean pages are reclaimed */
        if (cache->order) pthread_mutex_lock(&pool.birth), atomic_store(&pool.births, 1);
        status = cache->order ? tempolemon_on_alloc_dirty(&mine->cpu, number, cache->order, &unit)
                              : tempolemon_on_alloc(&mine->cpu, number, 0, &unit);
        if (status == TEMPOLEMON_DONE) page_at((uint32_t)unit.number)->tag = tag_of(cache, key) | 1;
        if (cache->order) atomic_store(&pool.births, 0), pthread_mutex_unlock(&pool.birth);
    } while (status == NO_FRAMES && is_urgent && !tempolemon_on_reclaim(&mine->cpu, TOP, cache->frames, &unit));
    if (status == TEMPOLEMON_DONE && !cache->order) serve(tempolemon_on_dirty, mine, (uint32_t)unit.number);
    if (status == TEMPOLEMON_DONE) count_pin(mine, cache, 1);
    leave(mine);
    if (status == TEMPOLEMON_OVER_LIMIT || status == NO_FRAMES) return NULL;
    need(status);
    frame_page *page = page_at((uint32_t)unit.number);
    OPEN(page, cache->frames);
    insert(cache, (entry){key, (uint32_t)unit.number});
    cache->misses++;
    page->lane = 0;
    page->used = atomic_fetch_add(&pool.clock, cache->frames) + cache->frames;
    memset(page->extra, 0, pool.stride - sizeof *page);
    return &page->page;
}

static sqlite3_pcache_page *fetch(sqlite3_pcache *cache, unsigned key, int create) {
    const entry *it = find(cache, key, false);
    const uint64_t tag = tag_at(cache, it);
    if (create == 1 && !(tag & 1) && is_crowded(cache)) return NULL; /* also a hit: it would be a pin more */
    const bool is_hit = tag & 1 || (tag && pin(cache, it->frame, tag));
    cache->hits += is_hit;
    if (is_hit) return &page_at(it->frame)->page;
    if (!create || (create == 1 && cache->pinned + cache->pinned / 8 >= cache->size)) return NULL;
    return add_page(cache, key, create == 2);
}

/* It can't fail: in a table without a free entry there is one whose page is gone. */
static void rekey(sqlite3_pcache *cache, sqlite3_pcache_page *page, unsigned from, unsigned to) {
    (void)from;
    frame_page *it = (frame_page *)page;
    drop(cache, find(cache, to, false));
    it->tag = tag_of(cache, to) | 1;
    insert(cache, (entry){to, frame_of(it)});
}

/* Drops the pages from this key on, or of these what isn't pinned if `spared` is 1. */
static void drop_from(sqlite3_pcache *cache, uint32_t first, uint64_t spared) {
    for (const entry *it = cache->table; it <= &cache->table[cache->mask]; it++)
        if (it->key >= first && !(tag_at(cache, it) & spared)) drop(cache, it);
}
static void truncate_cache(sqlite3_pcache *cache, unsigned limit) { /* after most transactions nothing is above it */
    if (limit <= cache->greatest) drop_from(cache, limit, 0), cache->greatest = limit - 1;
}
static void shrink(sqlite3_pcache *cache) { drop_from(cache, 1, 1); }
static void set_size(sqlite3_pcache *cache, int pages) { cache->size = pages > 0 ? (uint32_t)pages : 0; }
/* SQLite doesn't write a changed page to the file unless this is above some size, in VACUUM the cache_size. */
static int count_pages(sqlite3_pcache *cache) { return (int)(cache->entries + (is_crowded(cache) ? cache->size : 0)); }

static sqlite3_pcache *create(int page_size, int extra, int is_purgeable) {
    (void)extra, (void)is_purgeable; /* SQLite said before how many extra bytes there are at most */
    entry *table = calloc(FIRST_TABLE, sizeof *table);
    pthread_mutex_lock(&pool.mutex);
    const uint32_t tenant = table ? group_at(tenant_path) : 0, number = pool.spare ? pool.spare : pool.used + 1;
    sqlite3_pcache *cache = tenant && number < MOST_CACHES ? &pool.caches[number] : NULL;
    if (cache) {
        pool.used += !pool.spare;
        pool.spare = cache->spare;
        pool.live++;
        *cache = (sqlite3_pcache){&pool.groups[tenant], table, FIRST_TABLE - 1, .number = number};
        for (cache->frames = 1; (int)cache->frames * FRAME < page_size; cache->frames *= 2) cache->order++;
    }
    pthread_mutex_unlock(&pool.mutex);
    if (!cache) free(table);
    return cache;
}

static void destroy(sqlite3_pcache *cache) {
    truncate_cache(cache, 1);
    free(cache->table);
    pthread_mutex_lock(&pool.mutex);
    cache->tenant = NULL;
    cache->spare = pool.spare;
    pool.spare = cache->number;
    pool.live--;
    pthread_mutex_unlock(&pool.mutex);
}

static void stop(void *unused) {
    (void)unused;
    tempolemon_report report = {0};
    if (pool.live) return; /* connections are open, and may go on */
    for (lane *it = &pool.lanes[1]; it <= &pool.lanes[LANES]; it++)
        if (it->cpu.part.is_live) need(tempolemon_return(&it->cpu));
    if (pool.zone.is_live) need(tempolemon_zone_end(&pool.zone, &report));
    if (report.held || report.free != report.frames) need(UINT8_MAX); /* a frame is missing */
    for (uint32_t at = 0; at < pool.frames; at++) OPEN(page_at(at), 1u);
    munmap(pool.arena, pool.size);
    memset(pool.groups, 0, sizeof pool.groups);
    pool.used = pool.spare = 0;
}

static int start(void *unused) {
    tempolemon_result result;
    if (pool.live) return SQLITE_OK; /* connections were open at the last stop */
    if (pool.zone.is_live) stop(unused);
    pool.frames = 2 * pool.budget;
    pool.size = FRAME + pool.frames * (FRAME + pool.stride) + MOST_CACHES * sizeof *pool.caches;
    pool.arena = mmap(NULL, pool.size, PROT_READ | PROT_WRITE, MAP_PRIVATE | MAP_ANONYMOUS | MAP_NORESERVE, -1, 0);
    if (pool.arena == MAP_FAILED) return SQLITE_NOMEM;
    pool.pages = pool.arena + FRAME + (size_t)pool.frames * FRAME; /* SQLite may read beyond a page */
    pool.caches = (sqlite3_pcache *)(pool.pages + pool.frames * pool.stride);
    for (uint32_t at = 0; at < pool.frames; at++) {
        page_at(at)->page = (sqlite3_pcache_page){pool.arena + (size_t)at * FRAME, page_at(at)->extra};
        SHUT(page_at(at), 1u);
    }
    const uint32_t wanted = pool.budget / 4096, batch = wanted < 1 ? 1 : wanted > 32 ? 32 : wanted;
    const tempolemon_sizes sizes = {.frames = pool.frames, .cpus = LANES, .batch = batch, .high = 2 * batch, .stock = batch,
                                    .reclaim_batch = RECLAIM_BATCH, .no_kill = 1, .proportional = 1};
    uint8_t status = tempolemon_zone_boot(&sizes, &pool.zone);
    for (uint32_t at = 1; at <= LANES && status == TEMPOLEMON_DONE; at++) {
        pool.lanes[at] = (lane){.mutex = PTHREAD_MUTEX_INITIALIZER};
        status = tempolemon_take(&pool.zone, at, &pool.lanes[at].cpu);
    }
    if (status != TEMPOLEMON_DONE) return stop(unused), SQLITE_NOMEM;
    (void)(group_at("/db") && group_at("/db/main")); /* TOP is the first */
    pool.groups[TOP].limit = (int32_t)pool.budget;
    need(tempolemon_on_set_max(&pool.lanes[1].cpu, TOP, pool.budget, &result));
    return SQLITE_OK;
}

const char *tempolemon_pcache_install(size_t bytes) {
    static const sqlite3_pcache_methods2 methods = {1,     NULL,  start,          stop,    create, set_size, count_pages, fetch,
                                                    unpin, rekey, truncate_cache, destroy, shrink};
    int extra = 256;
    if (bytes / FRAME < LEAST_BUDGET || bytes / FRAME > MOST_BUDGET) return "a budget is 1M to 2G";
    if (pool.live) return "a connection is open";
    if (sqlite3_config(SQLITE_CONFIG_PCACHE2, &methods) != SQLITE_OK) return "SQLite is initialized already";
    sqlite3_config(SQLITE_CONFIG_PCACHE_HDRSZ, &extra); /* at least what `create` is told */
    pool.stride = sizeof(frame_page) + ((size_t)extra + 7) / 8 * 8;
    pool.budget = (uint32_t)(bytes / FRAME);
    return NULL;
}

/* Finds or makes a tenant. Sets its limit; or if that is 0, this thread opens databases for it. */
static const char *set_tenant(const char *name, uint32_t limit) {
    char path[64];
    tempolemon_result result;
    if (!*name || strlen(name) > 31 || strchr(name, '/')) return "a tenant's name has 1 to 31 bytes without /";
    if (sqlite3_initialize() != SQLITE_OK || !pool.zone.is_live) return "this page cache isn't installed";
    snprintf(path, sizeof path, "/db/%s", name);
    pthread_mutex_lock(&pool.mutex);
    const uint32_t number = group_at(path);
    const char *why = number ? NULL : "no group of this name can be made";
    if (number && limit && pool.groups[number].pinned > (int32_t)limit) why = "its databases have pinned more than that";
    if (!why && limit) {
        lane *mine = enter(0);
        pool.groups[number].limit = (int32_t)limit;
        need(tempolemon_on_set_max(&mine->cpu, number, limit, &result));
        leave(mine);
    } else if (!why) strcpy(tenant_path, path);
    pthread_mutex_unlock(&pool.mutex);
    return why;
}
const char *tempolemon_pcache_tenant(const char *name) { return set_tenant(name, 0); }
const char *tempolemon_pcache_limit(const char *name, size_t bytes) {
    if (bytes / FRAME < LEAST_LIMIT) return "a limit is at least 256K";
    return set_tenant(name, bytes / FRAME < NO_LIMIT ? (uint32_t)(bytes / FRAME) : NO_LIMIT);
}

/* Writes the sums of the counts of the caches at or below this path: how many there are. */
static uint32_t read_counts(const char *path, char *text) {
    unsigned long long caches = 0, pages = 0, pinned = 0, hits = 0, misses = 0;
    for (const sqlite3_pcache *it = &pool.caches[1]; it <= &pool.caches[pool.used]; it++) {
        char own[96] = "";
        if (it->tenant) snprintf(own, sizeof own, "%s/c%u/", it->tenant->path, it->number);
        if (strncmp(own, path, strlen(path)) || own[strlen(path)] != '/') continue;
        caches++, pages += it->entries, pinned += it->pinned, hits += it->hits, misses += it->misses;
    }
    snprintf(text, TEMPOLEMON_PCACHE_TEXT, "caches %llu\npages %llu\npinned %llu\nhits %llu\nmisses %llu\n", caches, pages,
             pinned, hits, misses);
    return (uint32_t)caches;
}

const char *tempolemon_pcache_read(const char *of, const char *file, char text[TEMPOLEMON_PCACHE_TEXT]) {
    char path[64];
    tempolemon_result result = {0};
    snprintf(path, sizeof path, "/db%s%s", *of ? "/" : "", of);
    pthread_mutex_lock(&pool.mutex);
    lane *mine = enter(0);
    bool is_read = pool.zone.is_live && !strcmp(file, "cache.stat") && read_counts(path, text);
    if (!is_read && !tempolemon_on_read(&mine->cpu, path, strlen(path), file, strlen(file), text, 256, &result))
        is_read = true, text[result.number] = 0;
    leave(mine);
    pthread_mutex_unlock(&pool.mutex);
    return is_read ? NULL : "no group or file of this name";
}
