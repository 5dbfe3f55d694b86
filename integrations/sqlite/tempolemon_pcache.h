/* A page cache for SQLite on Tempolemon: all databases of a process share one budget, and tenants have limits: see README.md.
 * A call that returns text returns NULL if it did what it is for, and else why not: a constant. Calls may come from any thread,
 * except that tempolemon_pcache_install comes before SQLite is initialized. */
#ifndef TEMPOLEMON_PCACHE_H
#define TEMPOLEMON_PCACHE_H

#include <stddef.h>

#ifdef __cplusplus
extern "C" {
#endif

enum { TEMPOLEMON_PCACHE_TEXT = 257 }; /* what a file's text has at most, with the null byte at its end */

/* Has SQLite use this page cache, with so many bytes for the pages of all databases: 1 MiB to 2 GiB. */
const char *tempolemon_pcache_install(size_t bytes);

/* What this thread opens from now on belongs to this tenant, which is made if there is none: a name of 1 to 31 bytes, none of
 * them a slash or a space. At first it is "main". A tenant stays until sqlite3_shutdown. */
const char *tempolemon_pcache_tenant(const char *name);

/* Limits the pages of a tenant, which is made if there is none, to so many bytes: at least 256 KiB. */
const char *tempolemon_pcache_limit(const char *name, size_t bytes);

/* Reads a file, such as memory.events, of all databases ("") or of a tenant ("NAME"). The file cache.stat has the counts of
 * their caches, or of one ("NAME/cN"). */
const char *tempolemon_pcache_read(const char *group, const char *file, char text[TEMPOLEMON_PCACHE_TEXT]);

#ifdef __cplusplus
}
#endif

#endif
