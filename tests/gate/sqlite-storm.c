/* A hard workload for a page cache of SQLite. What it prints depends on the seed alone, not on the cache:
 *
 *     sqlite-storm plain|tempolemon FOLDER SEED [ROUNDS]
 *
 * 60 connections at once hold statements with ephemeral tables open. Then 6 threads of 3 tenants each make ROUNDS (100) random
 * turns on databases of their own, with pages of 512 to 65,536 bytes, two connections, WAL or a journal, savepoints, spill,
 * VACUUM, backups, ten attached databases, indexes that are dropped and temporary tables, and then on a database that all
 * share. A thread's line has a hash of all rows and statuses that it got. An odd seed has databases in memory and no spill,
 * 10,000 open statements, and room for that; an even one has neither, and tight limits. SQLITE_NOMEM ends the run with 1, and
 * so does a database that isn't intact.
 */
#define _GNU_SOURCE
#include <pthread.h>
#include <sqlite3.h>
#include <stdarg.h>
#include <stdbool.h>
#include <stdint.h>
#include <stdio.h>
#include <stdlib.h>
#include <string.h>

#include "tempolemon_pcache.h"

enum { THREADS = 6, TENANTS = 3, MIB = 1 << 20, CONNECTIONS = 60, MOST_STATEMENTS = 10000, ATTACHED = 10, INDEXES = 99 };
#define SERIES "with recursive c(x) as (select %u union all select x + 1 from c where x < %u) "
#define TABLES                                                                                                         \
    "create table t(id integer primary key, k int, v text); create index tk on t(k); create index tv on t(v); "        \
    "create table big(id integer primary key, x blob)"

typedef struct {
    pthread_t thread;
    int number;
    uint64_t random, hash;
    unsigned long rows;
    sqlite3 *one, *two, *memory;
    char path[256];
} worker;

static const char *folder;
static pthread_mutex_t mutex = PTHREAD_MUTEX_INITIALIZER;
static sqlite3_stmt *common; /* which all threads step, under the mutex: one unpins what another pinned */
static unsigned seed;
static int rounds = 100;
static bool is_tempolemon, is_roomy;

static void fail(const worker *me, sqlite3 *db, const char *what) {
    fprintf(stderr, "thread %d: %s: %s\n", me->number, db ? sqlite3_errmsg(db) : "no database", what);
    exit(EXIT_FAILURE);
}

static uint32_t draw(worker *me, uint32_t below) {
    me->random = me->random * 6364136223846793005u + 1442695040888963407u;
    return (uint32_t)(me->random >> 33) % below;
}

static void mix(worker *me, const void *bytes, size_t length) {
    for (const unsigned char *at = bytes; length--; at++) me->hash = (me->hash ^ *at) * 1099511628211u;
}

static void mix_row(worker *me, sqlite3_stmt *statement) {
    me->rows++;
    for (int at = 0; at < sqlite3_column_count(statement); at++) {
        const void *bytes = sqlite3_column_blob(statement, at);
        mix(me, bytes, (size_t)sqlite3_column_bytes(statement, at));
        mix(me, "|", 1);
    }
}

/* Runs statements, which may have the answer SQLITE_CONSTRAINT, but no other fault. */
static void run(worker *me, sqlite3 *db, const char *form, ...) {
    va_list words;
    va_start(words, form);
    char *const text = sqlite3_vmprintf(form, words);
    va_end(words);
    for (const char *at = text; *at;) {
        sqlite3_stmt *statement;
        int status = sqlite3_prepare_v2(db, at, -1, &statement, &at);
        if (status == SQLITE_OK && statement) {
            while ((status = sqlite3_step(statement)) == SQLITE_ROW) {
                mix_row(me, statement);
                const bool is_check = strstr(sqlite3_sql(statement), "integrity") != NULL;
                if (is_check && strcmp((const char *)sqlite3_column_text(statement, 0), "ok")) fail(me, db, text);
            }
            sqlite3_finalize(statement);
        }
        mix(me, &status, sizeof status);
        if (status != SQLITE_OK && status != SQLITE_DONE && status != SQLITE_CONSTRAINT) fail(me, db, text);
    }
    sqlite3_free(text);
}

static sqlite3 *open_at(worker *me, const char *path, uint32_t cache_size) {
    sqlite3 *db;
    if (sqlite3_open(path, &db) != SQLITE_OK) fail(me, db, path);
    sqlite3_busy_timeout(db, 60000);
    run(me, db, "pragma synchronous = off; pragma cache_size = %u", cache_size);
    return db;
}

static void change(worker *me, sqlite3 *db) {
    const uint32_t from = draw(me, 4000), count = draw(me, 8) ? 1 + draw(me, 60) : draw(me, 2000);
    const uint32_t to = from + count < 4000 ? from + count : 4000, key = draw(me, 1000), width = 1 + draw(me, 200);
    switch (draw(me, 10)) {
    case 0:
    case 1:
    case 2:
        run(me, db, SERIES "insert or replace into t select x, (x * 7919 + %u) %% 10007, "
                    "printf('%%0*d', %u + x %% 50, x * %u) from c", from, to, key, width, key + 1);
        break;
    case 3:
        run(me, db, "update t set v = v || %u, k = (k + %u) %% 10007 where id between %u and %u", key, key, from, to);
        break;
    case 4: run(me, db, "delete from t where id between %u and %u", from, to); break;
    case 5: run(me, db, "select id, k, v from t where k = %u order by id", key * 10); break;
    case 6: run(me, db, "select count(*), sum(k), sum(length(v)), max(v) from t where id > %u", from); break;
    case 7:
        run(me, db, "select count(*), sum(a.k) from t a join t b on b.id = a.k where a.id between %u and %u", from, to);
        break;
    case 8:
        run(me, db, "insert or replace into big values(%u, zeroblob(%u))", key % 8, 1 + draw(me, draw(me, 4) ? 9000 : 90000));
        break;
    case 9: run(me, db, "select id, length(x), hex(substr(x, %u, 20)) from big order by id", width * 10); break;
    }
}

static void make_transaction(worker *me, sqlite3 *db) {
    uint32_t depth = 0;
    run(me, db, "begin");
    for (uint32_t left = 1 + draw(me, 8); left > 0; left--) {
        const uint32_t what = draw(me, 10);
        if (what == 1 && depth) depth = 1 + draw(me, depth); /* a rollback to a savepoint removes those after it */
        if (what == 0) run(me, db, "savepoint s%u", depth++);
        else if (what == 1 && depth) run(me, db, "rollback to s%u", depth - 1);
        else if (what == 2 && depth) run(me, db, "release s%u", --depth);
        else change(me, db);
    }
    run(me, db, draw(me, 3) ? "commit" : "rollback");
}

static void copy(worker *me) {
    sqlite3 *db = open_at(me, is_roomy ? ":memory:" : "", 10);
    sqlite3_backup *backup = sqlite3_backup_init(db, "main", me->one, "main");
    int status = SQLITE_ERROR;
    while (backup && (status = sqlite3_backup_step(backup, 37)) == SQLITE_OK) continue;
    sqlite3_backup_finish(backup);
    if (status != SQLITE_DONE) fail(me, db, "backup");
    run(me, db, "select count(*), sum(k), sum(length(v)) from t");
    sqlite3_close(db);
}

static void reopen(worker *me) {
    sqlite3_close(me->two);
    me->two = open_at(me, me->path, 10 + draw(me, 50));
}

/* Each dropped index has an ephemeral table. */
static void drop_indexes(worker *me) {
    run(me, me->one, "begin; create table w(a int, b text); insert into w select id, v from t limit 20");
    for (uint32_t at = 0; at < INDEXES; at++) run(me, me->one, "create index w%u on w(a + %u, b)", at, at);
    run(me, me->one, "commit; drop table w; select count(*) from sqlite_master");
}

static void attach(worker *me) {
    for (uint32_t at = 0; at < ATTACHED; at++) {
        run(me, me->two, "attach '%s.%u' as a%u; create table if not exists a%u.x(id integer primary key, k int)", me->path, at,
            at, at);
        run(me, me->two, "insert into a%u.x(k) select distinct k from t where id %% %u = 3", at, at + 7);
    }
    run(me, me->two, "select count(*), sum(k) from (select * from a0.x union select * from a3.x union all select * from a9.x)");
    run(me, me->two, "begin; delete from a1.x where id > 100; update a2.x set k = k + 1; delete from a4.x; commit");
    for (uint32_t at = 0; at < ATTACHED; at++) run(me, me->two, "detach a%u", at);
}

static void vacuum_into(worker *me) {
    char path[300];
    snprintf(path, sizeof path, "%s.into", me->path);
    run(me, me->one, "vacuum into '%s'", path);
    sqlite3 *db = open_at(me, path, 10);
    run(me, db, "select count(*), sum(k), sum(length(v)) from t; pragma integrity_check");
    sqlite3_close(db);
    remove(path);
}

static void take_turn(worker *me) {
    switch (draw(me, 30)) {
    case 0: run(me, me->one, "vacuum"); break;
    case 1: run(me, me->one, "pragma cache_size = %u", 5 + draw(me, 300)); break;
    case 2: run(me, me->two, "pragma cache_spill = %u", is_roomy ? draw(me, 2) : 1 + draw(me, 30)); break;
    case 3: sqlite3_db_release_memory(draw(me, 2) ? me->one : me->two); break;
    case 4:
        run(me, me->one, "create temp table if not exists tt as select * from t limit 0; delete from tt; insert into tt "
                         "select * from t where id %% 5 = 0; select count(*), sum(k) from tt; delete from tt where rowid %% 3");
        break;
    case 5:
    case 6: run(me, me->two, "select count(*), sum(k), sum(length(v)) from t"); break;
    case 7: run(me, me->two, "select v from t order by v desc limit 200"); break;
    case 8: make_transaction(me, me->memory); break;
    case 9: copy(me); break;
    case 10: reopen(me); break;
    case 11: run(me, me->one, "reindex t"); break;
    case 12: run(me, me->memory, "delete from t where id > 3000; delete from big where id > 3; vacuum"); break;
    case 13: run(me, me->one, "drop index if exists tv; create index tv on t(v)"); break;
    case 14: run(me, me->two, "pragma integrity_check"); break;
    case 15: drop_indexes(me); break;
    case 16: attach(me); break;
    case 17: vacuum_into(me); break;
    case 18:
        run(me, draw(me, 2) ? me->one : me->memory, "with m as materialized (select id, k from t where k %% 3) "
                                                    "select count(*), sum(a.k) from m a join m b on a.id = b.id + 1");
        break;
    default: make_transaction(me, draw(me, 3) ? me->one : me->two);
    }
}

/* Has many statements with ephemeral tables open at once, on many connections. */
static void hold_open(worker *me) {
    static const char *const texts[] = {
        "select distinct x + id %% 3 from n where id in (1, 5, 9, %u) union select id from n where id in (7, 8) order by 1",
        "with m as materialized (select id from n where id < 9 + %u) select a.id from m a join m b on a.id = b.id + 1",
        "select id from n where id in (3, 2, 1, %u)",
        "select distinct pad from n where id < 20 + %u %% 9 group by id %% 7",
    };
    static sqlite3_stmt *statements[MOST_STATEMENTS];
    sqlite3 *dbs[CONNECTIONS];
    const uint32_t count = is_roomy ? MOST_STATEMENTS : 4 * CONNECTIONS;
    for (int at = 0; at < CONNECTIONS; at++) dbs[at] = open_at(me, me->path, 20);
    for (int round = 0; round < 3; round++) /* 0 begins them, 1 has the next row of each, 2 ends them */
        for (uint32_t at = 0; at < count; at++) {
            sqlite3 *db = dbs[at % CONNECTIONS];
            char *const text = sqlite3_mprintf(texts[at < 4 * CONNECTIONS ? at / CONNECTIONS : 2], at % 1000);
            int status = round ? SQLITE_OK : sqlite3_prepare_v2(db, text, -1, &statements[at], NULL);
            for (int left = 1; left > 0 && status != SQLITE_DONE; left -= round < 2) {
                if (status == SQLITE_OK || status == SQLITE_ROW) status = sqlite3_step(statements[at]);
                if (status == SQLITE_ROW) mix_row(me, statements[at]);
                else if (status != SQLITE_DONE) fail(me, db, text);
            }
            mix(me, &status, sizeof status);
            sqlite3_free(text);
            if (round == 2) sqlite3_finalize(statements[at]);
        }
    for (int at = 0; at < CONNECTIONS; at++) sqlite3_close(dbs[at]);
}

/* Turns on a database of which the sum of all rows doesn't depend on the order of the threads. */
static void share(worker *me) {
    char path[256];
    snprintf(path, sizeof path, "%s/shared.db", folder);
    sqlite3 *db = open_at(me, path, 20);
    const uint64_t hash = me->hash;
    for (int round = 0; round < rounds; round++) {
        const uint32_t from = draw(me, 1000);
        run(me, db, "begin immediate; update n set x = x + 1 where id between %u and 1000; "
                    "update n set x = x - 1 where id = %u; commit", from, draw(me, 2000));
        run(me, db, "select sum(x) from n where id <= %u", draw(me, 3000));
        pthread_mutex_lock(&mutex);
        for (int step = 0; step < 50; step++)
            if (sqlite3_step(common) != SQLITE_ROW && sqlite3_reset(common) != SQLITE_OK) fail(me, db, "common");
        pthread_mutex_unlock(&mutex);
    }
    me->hash = hash;
    me->rows = 0;
    sqlite3_close(db);
}

static void *work(void *at) {
    static const int sizes[] = {512, 1024, 2048, 4096, 4096, 8192, 16384, 32768, 65536};
    worker *me = at;
    char name[16], memory[256] = ":memory:";
    snprintf(name, sizeof name, "t%d", me->number % TENANTS);
    if (is_tempolemon && tempolemon_pcache_tenant(name)) fail(me, NULL, tempolemon_pcache_tenant(name));
    snprintf(me->path, sizeof me->path, "%s/%d.db", folder, me->number);
    if (!is_roomy) snprintf(memory, sizeof memory, "%s/m%d.db", folder, me->number);
    me->random = seed * 1000003u + (unsigned)me->number;
    me->one = open_at(me, me->path, 10 + draw(me, 200));
    me->memory = open_at(me, memory, 20);
    run(me, me->one, "pragma page_size = %d; pragma journal_mode = %s; pragma temp_store = %u", sizes[draw(me, 9)],
        draw(me, 2) ? "wal" : "delete", is_roomy ? draw(me, 3) : 1);
    run(me, me->one, TABLES);
    run(me, me->memory, TABLES);
    me->two = open_at(me, me->path, 10 + draw(me, 50));
    for (int round = 0; round < rounds; round++) take_turn(me);
    share(me);
    run(me, me->two, "pragma integrity_check; select * from t; select * from big");
    run(me, me->memory, "pragma integrity_check; select * from t");
    sqlite3_close(me->two);
    sqlite3_close(me->one);
    sqlite3_close(me->memory);
    return NULL;
}

static void install(worker *me) {
    const char *why = tempolemon_pcache_install((size_t)(is_roomy ? 96 : 8) * MIB);
    for (int at = 0; at < TENANTS && !why; at++) {
        char name[16];
        snprintf(name, sizeof name, "t%d", at);
        why = tempolemon_pcache_limit(name, (size_t)(is_roomy ? 40 : 4) * MIB);
    }
    if (why) fail(me, NULL, why);
}

/* Tells what the groups went through, on standard error. */
static void tell(void) {
    static const char *const groups[] = {"", "t0", "t1", "t2"};
    static const char *const files[] = {"memory.current", "memory.peak", "memory.events"};
    for (int group = 0; group < 4; group++)
        for (int file = 0; file < 3; file++) {
            char text[TEMPOLEMON_PCACHE_TEXT];
            if (tempolemon_pcache_read(groups[group], files[file], text)) continue;
            for (char *at = text; *at; at++)
                if (*at == '\n') *at = ' ';
            fprintf(stderr, "/%s %s: %s\n", groups[group], files[file], text);
        }
}

int main(int count, char **words) {
    static worker workers[THREADS], boss = {.number = THREADS, .hash = 1};
    if (count < 4) return EXIT_FAILURE;
    is_tempolemon = !strcmp(words[1], "tempolemon");
    folder = words[2];
    seed = (unsigned)atoi(words[3]);
    is_roomy = seed % 2;
    if (count > 4) rounds = atoi(words[4]);
    if (is_tempolemon) install(&boss);
    snprintf(boss.path, sizeof boss.path, "%s/shared.db", folder);
    boss.one = open_at(&boss, boss.path, 20);
    run(&boss, boss.one, "pragma page_size = 2048; pragma journal_mode = wal; "
                         "create table n(id integer primary key, x int, pad text); "
                         SERIES "insert into n select x, 0, printf('%%0100d', x) from c", 0, 3000);
    hold_open(&boss);
    snprintf(boss.path, sizeof boss.path, "%s/common.db", folder);
    sqlite3 *const db = open_at(&boss, boss.path, 200);
    run(&boss, db, "create table n(id integer primary key, pad text); "
                   SERIES "insert into n select x, printf('%%0300d', x) from c", 0, 1000);
    if (!is_roomy) /* VACUUM keeps up to a cache_size of changed pages, and these are more than the budget */
        run(&boss, db, "pragma cache_size = 100000; create table large(x); "
                       SERIES "insert into large select printf('%%0300d', x) from c; vacuum; pragma cache_size = 20", 1, 40000);
    if (sqlite3_prepare_v2(db, "select id, pad from n", -1, &common, NULL) != SQLITE_OK) fail(&boss, db, "common");
    for (int at = 0; at < THREADS; at++) {
        workers[at] = (worker){.number = at, .hash = 14695981039346656037u};
        if (pthread_create(&workers[at].thread, NULL, work, &workers[at])) return EXIT_FAILURE;
    }
    for (int at = 0; at < THREADS; at++) {
        pthread_join(workers[at].thread, NULL);
        printf("%d %016llx %lu\n", at, (unsigned long long)workers[at].hash, workers[at].rows);
    }
    run(&boss, boss.one, "pragma integrity_check; select * from n");
    printf("shared %016llx\n", (unsigned long long)boss.hash);
    if (is_tempolemon) tell();
    sqlite3_finalize(common);
    sqlite3_close(db);
    sqlite3_close(boss.one);
    return sqlite3_shutdown() == SQLITE_OK ? EXIT_SUCCESS : EXIT_FAILURE;
}
