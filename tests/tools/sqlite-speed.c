/* What databases get of a page cache; the script sqlite-speed beside this builds and runs it:
 *
 *     sqlite-speed CACHE FOLDER time THREADS PAGES
 *     sqlite-speed CACHE FOLDER in THREADS CONNECTIONS
 *     sqlite-speed CACHE FOLDER point|union|change PAGES CONNECTIONS
 *     sqlite-speed CACHE FOLDER WORKLOAD PAGES [LIMIT]
 *
 * CACHE is `own` (SQLite's, an equal part of the pages for each database), `unified` (SQLite's one LRU list, which it has if
 * it is configured for a single thread), `tempolemon`, or `tenants`: that with a tenant for each database.
 *
 * time: THREADS threads, each with a database of 60,000 rows (4,800 pages), make 20,000 operations: 45 % reads by number,
 * 30 % by an index, 10 % of 200 rows, 15 % transactions of 10 changes. Each database may have PAGES. It prints the CPU time of
 * an operation in microseconds, the percentage of hits, and how many pages an operation fetched.
 *
 * in: THREADS threads make 100,000 statements `select .. in (..)`, in turn on the CONNECTIONS, each of a database. It prints
 * the CPU time of one in microseconds.
 *
 * point, union, change: below a budget of PAGES each of the CONNECTIONS, to a database of 1,000 rows, has a read by an index
 * open, or a DISTINCT and UNION with three ephemeral tables, or a transaction of 10 changes. It ends with 1 if one fails.
 *
 * WORKLOAD: one thread makes the steps of a workload of the table `workloads` below, on databases that share PAGES. After the
 * first quarter it counts hits, but not those of a database that is scanned. It prints their percentage. LIMIT is the limit of
 * the last database's tenant in pages.
 */
#define _GNU_SOURCE
#include <math.h>
#include <pthread.h>
#include <sqlite3.h>
#include <stdbool.h>
#include <stdint.h>
#include <stdio.h>
#include <stdlib.h>
#include <string.h>
#include <time.h>

#include "tempolemon_pcache.h"

enum { PAGE = 4096, MOST_DATABASES = 256, MOST_THREADS = 16, OPERATIONS = 20000, STATEMENTS = 100000, SKEWS = 8 };

typedef struct {
    pthread_t thread;
    int number, threads;
    double seconds;
} worker;

typedef struct {
    sqlite3 *db;
    sqlite3_stmt *read, *scan, *change, *add;
    int64_t rows;
} database;

static const char *folder;
static bool is_tempolemon, has_tenants, is_unified;
static database databases[MOST_DATABASES];
static int count;        /* of the databases */
static double *skews[SKEWS]; /* sums of the chances of each row, by Zipf laws of the exponents 0.5 to 1.2 */
static uint64_t seed = 88172645463325252u;

static void need(int status, sqlite3 *db, const char *what) {
    if (status == SQLITE_OK || status == SQLITE_ROW || status == SQLITE_DONE) return;
    fprintf(stderr, "%s: %s\n", what, db ? sqlite3_errmsg(db) : sqlite3_errstr(status));
    exit(EXIT_FAILURE);
}

static void need_cache(const char *why) {
    if (why) exit((fprintf(stderr, "%s\n", why), EXIT_FAILURE));
}

static void run(sqlite3 *db, const char *form, long number) {
    char *text = sqlite3_mprintf(form, number);
    need(sqlite3_exec(db, text, NULL, NULL, NULL), db, text);
    sqlite3_free(text);
}

static sqlite3_stmt *prepare(sqlite3 *db, const char *text) {
    sqlite3_stmt *statement;
    need(sqlite3_prepare_v2(db, text, -1, &statement, NULL), db, text);
    return statement;
}

/* Makes databases of so many rows, each with so many pages of cache. */
static void make(int wanted, int rows, long pages) {
    for (count = 0; count < wanted; count++) {
        database *it = &databases[count];
        char path[256];
        snprintf(path, sizeof path, "t%d", count);
        if (has_tenants) need_cache(tempolemon_pcache_tenant(path));
        snprintf(path, sizeof path, "%s/%d.db", folder, count);
        need(sqlite3_open(path, &it->db), NULL, path);
        run(it->db, "pragma journal_mode = wal; pragma synchronous = off; pragma cache_size = %ld", pages);
        run(it->db, "create table t(id integer primary key, k int, v text); create index tk on t(k); "
                    "with recursive c(x) as (select 0 union all select x + 1 from c where x < %ld) "
                    "insert into t select x, x * 7919 %% 1000003, printf('%%0200d', x) from c; pragma wal_checkpoint(truncate)",
            rows - 1);
        it->rows = rows;
        it->read = prepare(it->db, "select length(v) from t where k = ?");
        it->scan = prepare(it->db, "select sum(length(v)) from t where id between ? and ?");
        it->change = prepare(it->db, "update t set v = printf('%0200d', ?2) where id = ?1");
        it->add = prepare(it->db, "insert into t values(?1, ?2, printf('%0200d', ?1))");
    }
}

static void end(void) {
    for (database *it = databases; it < &databases[count]; it++) {
        sqlite3_finalize(it->read);
        sqlite3_finalize(it->scan);
        sqlite3_finalize(it->change);
        sqlite3_finalize(it->add);
        sqlite3_close(it->db);
    }
}

static void step(sqlite3_stmt *statement, int64_t first, int64_t second) {
    int status;
    sqlite3_bind_int64(statement, 1, first);
    if (sqlite3_bind_parameter_count(statement) > 1) sqlite3_bind_int64(statement, 2, second);
    while ((status = sqlite3_step(statement)) == SQLITE_ROW) continue;
    need(status, sqlite3_db_handle(statement), "step");
    sqlite3_reset(statement);
}

static uint64_t draw(uint64_t *from) {
    *from ^= *from << 13;
    *from ^= *from >> 7;
    return *from ^= *from << 17;
}
static int64_t below(int64_t most) { return (int64_t)(draw(&seed) >> 20) % most; }

static double seconds_of(clockid_t clock) {
    struct timespec time;
    clock_gettime(clock, &time);
    return (double)time.tv_sec + (double)time.tv_nsec / 1e9;
}

/* Adds the hits and misses since the last call. */
static void count_hits(long *hits, long *misses, int but) {
    for (int at = 0; at < count; at++) {
        int hit, miss, most;
        sqlite3_db_status(databases[at].db, SQLITE_DBSTATUS_CACHE_HIT, &hit, &most, 1);
        sqlite3_db_status(databases[at].db, SQLITE_DBSTATUS_CACHE_MISS, &miss, &most, 1);
        if (at != but) *hits += hit, *misses += miss;
    }
}

static void *operate(void *at) {
    worker *me = at;
    const database *mine = &databases[me->number];
    uint64_t random = seed + (unsigned)me->number;
    sqlite3_stmt *by_number = prepare(mine->db, "select length(v) from t where id = ?");
    sqlite3_stmt *by_key = prepare(mine->db, "select id from t where k = ?");
    const double begin = seconds_of(CLOCK_THREAD_CPUTIME_ID);
    for (int at = 0; at < OPERATIONS; at++) {
        const int64_t row = (int64_t)(draw(&random) >> 20) % mine->rows, what = (int64_t)(draw(&random) >> 20) % 100;
        if (what < 45) step(by_number, row, 0);
        else if (what < 75) step(by_key, row * 7919 % 1000003, 0);
        else if (what < 85) step(mine->scan, row, row + 200);
        else {
            run(mine->db, "begin", 0);
            for (int change_at = 0; change_at < 10; change_at++) step(mine->change, (row + change_at * 977) % mine->rows, at);
            run(mine->db, "commit", 0);
        }
    }
    me->seconds = seconds_of(CLOCK_THREAD_CPUTIME_ID) - begin;
    sqlite3_finalize(by_number);
    sqlite3_finalize(by_key);
    return NULL;
}

static void *select_in(void *at) {
    worker *me = at;
    sqlite3_stmt *select[MOST_DATABASES];
    for (int at = me->number; at < count; at += me->threads)
        select[at] = prepare(databases[at].db, "select k from t where id in (1, 5, ?, 11)");
    const double begin = seconds_of(CLOCK_THREAD_CPUTIME_ID);
    for (int left = STATEMENTS, at = me->number; left > 0; left--, at += me->threads) {
        if (at >= count) at = me->number;
        step(select[at], left % 900, 0);
    }
    me->seconds = seconds_of(CLOCK_THREAD_CPUTIME_ID) - begin;
    for (int at = me->number; at < count; at += me->threads) sqlite3_finalize(select[at]);
    return NULL;
}

/* Has each of so many threads do the work: the seconds of CPU time of all. */
static double seconds_by(int threads, void *(*work)(void *)) {
    worker workers[MOST_THREADS];
    double seconds = 0;
    for (int at = 0; at < threads; at++) {
        workers[at] = (worker){.number = at, .threads = threads};
        pthread_create(&workers[at].thread, NULL, work, &workers[at]);
    }
    for (int at = 0; at < threads; at++) {
        pthread_join(workers[at].thread, NULL);
        seconds += workers[at].seconds;
    }
    return seconds;
}

/* A row by the Zipf law of this number. */
static int64_t skewed(int skew, int64_t rows) {
    const double wanted = (double)(draw(&seed) >> 11) / 9007199254740992.0 * skews[skew][rows - 1];
    int64_t low = 0, high = rows - 1;
    while (low < high) {
        const int64_t middle = (low + high) / 2;
        if (skews[skew][middle] < wanted) low = middle + 1;
        else high = middle;
    }
    return low;
}

/* Reads a row of a database by its index; those that are read most lie all over the table. */
static void read_row(int number, int64_t row) {
    const database *it = &databases[number];
    step(it->read, (int64_t)((uint64_t)row * 2654435761u % (uint64_t)it->rows) * 7919 % 1000003, 0);
}
static void read_skewed(int number, int skew) { read_row(number, skewed(skew, databases[number].rows)); }

/* The steps of the workloads. The last database is the one that is scanned, read at random, or read round and round. */
static void read_by_skews(int at) { read_skewed(at % 6, at % 6 + 1); }
static void read_hot(int hot) { read_skewed(below(100) < 80 ? hot : (int)below(count - 1), 3); }
static void scan_beside(int at) {
    read_hot(0);
    if (at % 8 == 0) step(databases[count - 1].scan, (int64_t)at / 8 * 400 % 50000, (int64_t)at / 8 * 400 % 50000 + 400);
}
static void pollute(int at) {
    if (at % 2) read_row(count - 1, below(databases[count - 1].rows));
    else read_skewed((int)below(count - 1), 5);
}
static void loop(int at) {
    const int64_t row = (int64_t)at / 2 * 13 % 40000;
    if (at % 2) step(databases[count - 1].scan, row, row);
    else read_skewed((int)below(count - 1), 5);
}
static void move(int at) { read_hot(at / 10000 % count); }
static void transact(int at) {
    const int number = (int)below(count);
    run(databases[number].db, "begin", 0);
    for (int each = 0; each < 4; each++) read_skewed(number, 5);
    for (int each = 0; each < 2; each++) step(databases[number].change, skewed(5, databases[number].rows), at);
    run(databases[number].db, "commit", 0);
}
static void read_many(int at) {
    (void)at;
    read_skewed((int)skewed(4, count), 4);
}
static void grow(int at) {
    database *it = &databases[at % count];
    run(it->db, "begin", 0);
    for (int each = 0; each < 20; each++, it->rows++) step(it->add, it->rows, it->rows * 7919 % 1000003);
    run(it->db, "commit", 0);
    for (int each = 0; each < 10; each++) {
        const int64_t row = it->rows - 1 - skewed(5, it->rows);
        step(it->scan, row, row);
    }
    for (int each = 0; each < 10; each++) read_skewed(at % count, 3);
    if (at % 1000 == 999) run(it->db, "delete from t where id % 3; vacuum", 0);
}

static const struct {
    const char *name;
    void (*step)(int at);
    int databases, rows, steps;
    bool is_last_left_out; /* of the hits */
} workloads[] = {
    {"zipf", read_by_skews, 6, 50000, 200000, false}, {"scan", scan_beside, 8, 50000, 100000, true},
    {"polluter", pollute, 4, 50000, 200000, true},    {"loop", loop, 4, 50000, 200000, false},
    {"moving", move, 8, 50000, 200000, false},        {"short", transact, 8, 50000, 30000, false},
    {"many", read_many, 40, 10000, 200000, false},    {"growth", grow, 4, 10000, 8000, false},
};

static void measure_hits(const char *name, long pages, long limit) {
    const int most = sizeof workloads / sizeof *workloads;
    int which = 0;
    while (which < most && strcmp(workloads[which].name, name)) which++;
    if (which == most) exit(EXIT_FAILURE);
    for (int skew = 0; skew < SKEWS; skew++) {
        skews[skew] = malloc(100000 * sizeof(double));
        for (int at = 0; at < 100000; at++)
            skews[skew][at] = (at ? skews[skew][at - 1] : 0) + 1 / pow(at + 1, 0.5 + 0.1 * skew);
    }
    const int wanted = workloads[which].databases;
    make(wanted, workloads[which].rows, is_tempolemon || is_unified ? 1000000 : pages / wanted);
    if (limit) {
        char tenant[16];
        snprintf(tenant, sizeof tenant, "t%d", count - 1);
        need_cache(tempolemon_pcache_limit(tenant, (size_t)limit * PAGE));
    }
    long hits = 0, misses = 0;
    const int but = workloads[which].is_last_left_out ? count - 1 : -1;
    for (int at = 0; at < workloads[which].steps; at++) {
        if (at == workloads[which].steps / 4) {
            count_hits(&hits, &misses, but);
            hits = misses = 0;
        }
        workloads[which].step(at);
    }
    count_hits(&hits, &misses, but);
    printf("%.1f\n", 100.0 * (double)hits / (double)(hits + misses));
}

static void measure_time(int threads, long pages) {
    long hits = 0, misses = 0;
    make(threads, 60000, pages);
    count_hits(&hits, &misses, -1);
    hits = misses = 0;
    const double seconds = seconds_by(threads, operate);
    count_hits(&hits, &misses, -1);
    printf("%.2f %.2f %.1f\n", seconds * 1e6 / threads / OPERATIONS, 100.0 * (double)hits / (double)(hits + misses),
           (double)(hits + misses) / threads / OPERATIONS);
}

static void measure_in(int threads, int connections) {
    make(connections, 1000, 1000);
    printf("%.2f\n", seconds_by(threads, select_in) * 1e6 / threads / STATEMENTS);
}

/* Has a statement open on each connection. */
static void measure_open(const char *what, int connections) {
    sqlite3_stmt *open[MOST_DATABASES];
    const bool is_change = !strcmp(what, "change");
    make(connections, 1000, 500);
    for (int at = 0; at < connections; at++) {
        if (is_change) run(databases[at].db, "begin", 0);
        for (int row = 0; row < 1000 && is_change; row += 100) step(databases[at].change, row, 1);
        open[at] = prepare(databases[at].db, !strcmp(what, "union") ? "select distinct k from t where id in (1, 500, 900) union "
                                                                      "select id from t where id in (7, 800)"
                                                                    : "select id, v from t where k >= 500000");
        need(sqlite3_step(open[at]), databases[at].db, what);
    }
    for (int at = 0; at < connections; at++) sqlite3_finalize(open[at]);
}

/* Has SQLite keep all pages in one list, in a buffer of so many. */
static void unify(long pages) {
    int header = 0;
    sqlite3_config(SQLITE_CONFIG_PCACHE_HDRSZ, &header);
    const int size = (PAGE + header + 7) / 8 * 8;
    need(sqlite3_config(SQLITE_CONFIG_SINGLETHREAD), NULL, "SINGLETHREAD"); /* else each database has a list of its own */
    need(sqlite3_config(SQLITE_CONFIG_PAGECACHE, malloc((size_t)size * (size_t)pages), size, (int)pages), NULL, "PAGECACHE");
}

int main(int words_count, char **words) {
    if (words_count < 5) return EXIT_FAILURE;
    const bool is_time = !strcmp(words[3], "time"), is_in = !strcmp(words[3], "in");
    const bool is_open = !strcmp(words[3], "point") || !strcmp(words[3], "union") || !strcmp(words[3], "change");
    const long first = atol(words[4]), second = words_count > 5 ? atol(words[5]) : 0;
    has_tenants = !strcmp(words[1], "tenants");
    is_tempolemon = has_tenants || !strcmp(words[1], "tempolemon");
    folder = words[2];
    /* beside the pages of the databases, a budget for times has some for the limits' slack */
    const long budget = is_time ? first * second * 5 / 4 : is_in ? second * 128 : first;
    if (is_tempolemon) need_cache(tempolemon_pcache_install((size_t)budget * PAGE));
    if (!strcmp(words[1], "unified")) unify(budget), is_unified = true;
    if (is_time) measure_time((int)first, second);
    else if (is_in) measure_in((int)first, (int)second);
    else if (is_open) measure_open(words[3], (int)second);
    else measure_hits(words[3], first, second);
    end();
    sqlite3_shutdown();
    return EXIT_SUCCESS;
}
