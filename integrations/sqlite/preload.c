/* Installs the page cache as it is loaded, under programs that know nothing of it: README.md, "Under a program that is there".
 *
 * TEMPOLEMON_PCACHE is the budget, such as 64M; without it nothing is done. With TEMPOLEMON_PCACHE_REPORT=1 the files of all
 * databases are printed at the end. A variable that is wrong ends the program with status 2.
 */
#include <ctype.h>
#include <stdint.h>
#include <stdio.h>
#include <stdlib.h>
#include <string.h>

#include "tempolemon_pcache.h"

/* The bytes of a number with K, M or G after it, or 0, which is no budget. */
static size_t bytes_of(const char *text) {
    static const char units[] = "KMG";
    char *end;
    const unsigned long long number = isdigit((unsigned char)*text) ? strtoull(text, &end, 10) : 0;
    const char *unit = number && *end ? strchr(units, toupper((unsigned char)*end)) : NULL;
    const int shift = unit ? 10 * (int)(unit - units + 1) : 0;
    if (!number || (*end && (!unit || end[1])) || number > SIZE_MAX >> shift) return 0;
    return (size_t)number << shift;
}

static void report(void) {
    static const char *const files[] = {"memory.current", "memory.peak", "memory.events"};
    char text[TEMPOLEMON_PCACHE_TEXT];
    for (int at = 0; at < 3; at++)
        if (!tempolemon_pcache_read("", files[at], text)) fprintf(stderr, "%s%s%s", files[at], at < 2 ? ": " : ":\n", text);
}

static void refuse(const char *name, const char *value, const char *why) {
    fprintf(stderr, "tempolemon_pcache: %s=%s: %s\n", name, value, why);
    _Exit(2);
}

__attribute__((constructor)) static void begin(void) {
    const char *budget = getenv("TEMPOLEMON_PCACHE"), *reports = getenv("TEMPOLEMON_PCACHE_REPORT");
    if (!budget) return;
    const char *why = tempolemon_pcache_install(bytes_of(budget));
    if (why) refuse("TEMPOLEMON_PCACHE", budget, why);
    if (reports && strcmp(reports, "0") && strcmp(reports, "1")) refuse("TEMPOLEMON_PCACHE_REPORT", reports, "it is 0 or 1");
    if (reports && !strcmp(reports, "1")) atexit(report);
}
