/* Plays a plan in cgroups of the running kernel, for tests/kernel/beside: in order, without waits.

       play PLAN DEVICE [-a] [-k] [-s] LIMIT..

   A plan's lines name groups by their place among the lines `group`, from 0 on. Amounts are bytes.
       group PATH [own]       a group; with `own` it has a process, and memory
       limited G              the group that gets the limits
       flag G                 memory.oom.group of G
       set G FILE VALUE       writes a file of the group
       fall G ANON FILE       its process releases its newest memory and file pages until it has so much
       anon G ANON            .. maps memory until it has so much, and touches it
       file G FILE            .. reads as much of its part of the device
       use G                  .. reads the newest half of its file pages that are there again
       sample                 ends a sample
   For each limit (bytes or max) everything is played anew, until somebody dies, or with -a to the end. With -s and two
   limits, of which one kills and one doesn't, limits between are played, down to 16 pages. Each run writes a line of JSON:
   who died at which sample, and of each group what memory.peak, memory.events and memory.stat have at the end; with -k
   also the kernel memory that can't be reclaimed, after each sample. */
#define _GNU_SOURCE
#include <errno.h>
#include <fcntl.h>
#include <signal.h>
#include <stdio.h>
#include <stdlib.h>
#include <string.h>
#include <sys/mman.h>
#include <sys/prctl.h>
#include <sys/stat.h>
#include <sys/wait.h>
#include <unistd.h>

enum { PAGE = 4096, MOST_GROUPS = 16, MOST_ORDERS = 4096, MOST_SAMPLES = 64, LEAST_STEP = 16 * PAGE };
#define ROOT "/sys/fs/cgroup/played"
#define SPACE (512L << 20) /* what a process may have of each kind; its part of the device begins at its number times that */

struct order { char what[8], file[16]; int group; long anon, amount; char value[24]; };
struct answer { int pid; long resident; };
struct group { char path[256]; int is_own, to, from, pid, died_at; long kernel[MOST_SAMPLES]; };

static struct order orders[MOST_ORDERS];
static struct group groups[MOST_GROUPS];
static int order_count, group_count, limited, flagged = -1, device, goes_on, keeps_kernel;
static char text[16384];

static void fail(const char *what) {
    fprintf(stderr, "play: %s: %s\n", what, strerror(errno));
    exit(2);
}

/* Files of groups */

static const char *name_of(int g, const char *file) {
    static char name[512];
    snprintf(name, sizeof name, ROOT "%.255s/%s", g < 0 ? "" : groups[g].path, file);
    return name;
}

static void write_file(int g, const char *file, const char *value) {
    const char *name = name_of(g, file);
    int fd = open(name, O_WRONLY);
    if (fd < 0 || write(fd, value, strlen(value)) < 0) fprintf(stderr, "play: %s '%s': %s\n", name, value, strerror(errno));
    if (fd >= 0) close(fd);
}

static const char *read_file(int g, const char *file) {
    int fd = open(name_of(g, file), O_RDONLY);
    ssize_t length = fd < 0 ? 0 : read(fd, text, sizeof text - 1);
    if (fd >= 0) close(fd);
    text[length > 0 ? length : 0] = 0;
    return text;
}

/* The value of a key in the text that was read last. */
static long value_of(const char *key) {
    size_t length = strlen(key);
    for (const char *line = text; line && *line; line = strchr(line, '\n') ? strchr(line, '\n') + 1 : NULL)
        if (!strncmp(line, key, length) && line[length] == ' ') return atol(line + length);
    return 0;
}

/* The process of a group */

static char *anon, *file;
static long has_anon, has_file;
static unsigned char there[SPACE / PAGE];

static void fall(int g, long to_anon, long to_file) {
    if (to_anon < has_anon) madvise(anon + to_anon, has_anon - to_anon, MADV_DONTNEED), has_anon = to_anon;
    if (to_file < has_file) {
        madvise(file + to_file, has_file - to_file, MADV_DONTNEED);
        posix_fadvise(device, g * SPACE + to_file, has_file - to_file, POSIX_FADV_DONTNEED);
        has_file = to_file;
    }
}

/* The file pages that are there; of the newest half of them each is read, if that is asked. */
static long look(int reads) {
    long count = 0, before = 0;
    if (has_file) mincore(file, has_file, there);
    for (long p = 0; p < has_file / PAGE; p++) count += there[p] & 1;
    for (long p = 0; reads && p < has_file / PAGE; p++)
        if (there[p] & 1 && before++ >= count / 2) (void)*(volatile char *)(file + p * PAGE);
    return count;
}

static void work(int g, int in, int out) {
    struct order order;
    struct answer answer = {getpid(), 0};
    anon = mmap(NULL, SPACE, PROT_READ | PROT_WRITE, MAP_PRIVATE | MAP_ANONYMOUS | MAP_NORESERVE, -1, 0);
    file = mmap(NULL, SPACE, PROT_READ, MAP_SHARED, device, g * SPACE);
    if (anon == MAP_FAILED || file == MAP_FAILED) fail("mmap");
    madvise(anon, SPACE, MADV_NOHUGEPAGE);
    madvise(file, SPACE, MADV_RANDOM);
    do {
        if (write(out, &answer, sizeof answer) < 0 || read(in, &order, sizeof order) != sizeof order) _exit(0);
        if (!strcmp(order.what, "fall")) fall(g, order.anon, order.amount);
        if (!strcmp(order.what, "anon"))
            for (; has_anon < order.amount; has_anon += PAGE) *(volatile char *)(anon + has_anon) = 1;
        if (!strcmp(order.what, "file"))
            for (; has_file < order.amount; has_file += PAGE) (void)*(volatile char *)(file + has_file);
        if (!strcmp(order.what, "use") || !strcmp(order.what, "look")) answer.resident = look(order.what[0] == 'u');
    } while (1);
}

/* A child enters the cgroup and makes the process there, so that the kernel's memory for it is the group's too. */
static void begin(int g) {
    int to[2], from[2];
    if (pipe2(to, O_CLOEXEC) || pipe2(from, O_CLOEXEC)) fail("pipe");
    int child = fork();
    if (child < 0) fail("fork");
    if (!child) {
        write_file(g, "cgroup.procs", "0");
        if (fork()) _exit(0);
        close(to[1]);
        close(from[0]);
        for (int h = 0; h < g; h++)
            if (groups[h].is_own) close(groups[h].to), close(groups[h].from);
        work(g, to[0], from[1]);
    }
    waitpid(child, NULL, 0);
    close(to[0]);
    close(from[1]);
    struct answer answer = {-1, 0};
    groups[g].to = to[1];
    groups[g].from = from[0];
    if (read(from[0], &answer, sizeof answer) != sizeof answer) fail(groups[g].path);
    groups[g].pid = answer.pid;
}

/* Notes who died; waits so many ms for the first, and a bit for others of its memory.oom.group. */
static void bury(int sample, int wait_ms) {
    for (int pid; (pid = waitpid(-1, NULL, WNOHANG)) > 0 || wait_ms-- > 0;) {
        if (pid <= 0) usleep(1000);
        for (int g = 0; g < group_count; g++)
            if (pid > 0 && groups[g].pid == pid) {
                groups[g].pid = 0;
                groups[g].died_at = sample;
                wait_ms = wait_ms < 20 ? wait_ms : 20;
            }
    }
}

static long ask(const struct order *order, int sample) {
    struct group *group = &groups[order->group];
    struct answer answer = {0, 0};
    if (!group->pid) return 0;
    if (write(group->to, order, sizeof *order) != sizeof *order || read(group->from, &answer, sizeof answer) <= 0) bury(sample, 3000);
    return answer.resident;
}

/* A run */

static void set_up(const char *limit) {
    mkdir(ROOT, 0755);
    write_file(-1, "cgroup.subtree_control", "+memory");
    for (int g = 0; g < group_count; g++) {
        if (mkdir(name_of(g, ""), 0755)) fail(groups[g].path);
        if (!groups[g].is_own) write_file(g, "cgroup.subtree_control", "+memory");
        groups[g].pid = 0;
        groups[g].died_at = -1;
        if (groups[g].is_own) begin(g);
    }
    if (flagged >= 0) write_file(flagged, "memory.oom.group", "1");
    write_file(limited, "memory.max", limit);
}

static void clear_up(void) {
    for (int g = 0; g < group_count; g++)
        if (groups[g].is_own) {
            close(groups[g].to);
            close(groups[g].from);
            if (groups[g].pid) kill(groups[g].pid, SIGKILL), waitpid(groups[g].pid, NULL, 0);
        }
    bury(0, 0);
    posix_fadvise(device, 0, 0, POSIX_FADV_DONTNEED);
    for (int g = group_count - 1; g >= 0; g--)
        for (int i = 0; rmdir(name_of(g, "")) && i < 1000; i++) usleep(1000);
}

/* The memory that no reclaim of the group frees. */
static long kernel_of(int g) {
    read_file(g, "memory.stat");
    return value_of("kernel") - value_of("slab_reclaimable");
}

static void report(const char *limit, long stays, int samples) {
    static const char *const keys[] = {"low", "high", "max", "oom", "oom_kill"};
    printf("{\"limit\": \"%s\", \"stays\": %ld, \"groups\": {", limit, stays);
    for (int g = 0; g < group_count; g++) {
        struct order look = {.what = "look", .group = g};
        printf("%s\"%s\": {\"resident\": %ld, \"died_at\": %d", g ? ", " : "", groups[g].path, ask(&look, 0), groups[g].died_at);
        printf(", \"peak\": %ld", atol(read_file(g, "memory.peak")));
        read_file(g, "memory.events");
        for (size_t k = 0; k < sizeof keys / sizeof keys[0]; k++) printf(", \"%s\": %ld", keys[k], value_of(keys[k]));
        if (keeps_kernel)
            for (int at = 0; at < samples; at++) printf("%s%ld", at ? ", " : ", \"kernel\": [", groups[g].kernel[at]);
        printf(keeps_kernel ? "]}" : "}");
    }
    printf("}}\n");
    fflush(stdout);
}

/* Plays everything below a limit. Whether somebody died. */
static int run(const char *limit) {
    long kills = 0, most_stays = 0;
    int sample = 0, died = 0;
    set_up(limit);
    for (int at = 0; at < order_count && (goes_on || !died); at++) {
        const struct order *order = &orders[at];
        if (!strcmp(order->what, "set")) write_file(order->group, order->file, order->value);
        else if (strcmp(order->what, "sample")) ask(order, sample), bury(sample, 0);
        else {
            read_file(limited, "memory.events");
            if (value_of("oom_kill") > kills) kills = value_of("oom_kill"), bury(sample, 1000);
            long stays = kernel_of(limited) + value_of("anon");
            most_stays = stays > most_stays ? stays : most_stays;
            if (sample == MOST_SAMPLES) fail("too many samples");
            for (int g = 0; g < group_count; g++) {
                died |= groups[g].died_at >= 0;
                if (keeps_kernel) groups[g].kernel[sample] = kernel_of(g);
            }
            sample++;
        }
    }
    report(limit, most_stays, sample);
    clear_up();
    return died;
}

static void read_plan(const char *name) {
    char line[512], word[16], path[256], own[8];
    FILE *in = fopen(name, "r");
    if (!in) fail(name);
    while (fgets(line, sizeof line, in)) {
        struct order *order = &orders[order_count];
        int words = sscanf(line, "%7s %d", order->what, &order->group);
        if ((words = sscanf(line, "group %255s %7s", path, own)) > 0 && group_count < MOST_GROUPS) {
            groups[group_count].is_own = words == 2;
            strcpy(groups[group_count++].path, path);
        } else if (sscanf(line, "limited %d", &limited) == 1 || sscanf(line, "flag %d", &flagged) == 1) {
        } else if (sscanf(line, "set %*d %15s %23s", order->file, order->value) == 2 ||
                   sscanf(line, "fall %*d %ld %ld", &order->anon, &order->amount) == 2 ||
                   sscanf(line, "%15s %*d %ld", word, &order->amount) == 2 || !strncmp(line, "use ", 4) ||
                   !strncmp(line, "sample", 6)) {
            if (++order_count == MOST_ORDERS) fail("too many orders");
        } else fail(line);
    }
    fclose(in);
}

int main(int count, char **words) {
    int at = 3, searches = 0;
    long dies = 0, lives = 0;
    if (count < 4) return fprintf(stderr, "play PLAN DEVICE [-a] [-k] [-s] LIMIT..\n"), 2;
    read_plan(words[1]);
    device = open(words[2], O_RDONLY | O_CLOEXEC);
    if (device < 0) fail(words[2]);
    signal(SIGPIPE, SIG_IGN);
    prctl(PR_SET_CHILD_SUBREAPER, 1);
    for (; at < count && words[at][0] == '-'; at++)
        goes_on |= words[at][1] == 'a', keeps_kernel |= words[at][1] == 'k', searches |= words[at][1] == 's';
    for (; at < count && !(searches && lives); at++) *(run(words[at]) ? &dies : &lives) = atol(words[at]);
    while (searches && dies && lives - dies > LEAST_STEP) {
        char limit[24];
        long middle = (dies + lives) / 2 / PAGE * PAGE;
        snprintf(limit, sizeof limit, "%ld", middle);
        *(run(limit) ? &dies : &lives) = middle;
    }
    return 0;
}
