/* Measures round trips of a session over a pipe:
       cc -O2 -o serve-rate tests/tools/serve-rate.c && ./serve-rate PROGRAM [COUNT]
   Each trip writes one line and reads its answer up to the empty line. */
#define _GNU_SOURCE
#include <stdio.h>
#include <stdlib.h>
#include <string.h>
#include <time.h>
#include <unistd.h>

static int to_program[2], from_program[2];

/* Writes this line, and reads its answer. */
static void trip(const char *line) {
    char answer[4096];
    size_t have = 0, length = strlen(line);
    if (write(to_program[1], line, length) != (ssize_t)length) exit(1);
    for (;;) {
        ssize_t got = read(from_program[0], answer + have, sizeof answer - have);
        if (got <= 0) exit(1);
        have += (size_t)got;
        if (answer[have - 1] == '\n' && (have == 1 || answer[have - 2] == '\n')) return;
    }
}

int main(int count_of_words, char **words) {
    long count = count_of_words > 2 ? strtol(words[2], NULL, 10) : 1000000;
    struct timespec from, to;
    if (count_of_words < 2 || pipe(to_program) || pipe(from_program)) return 2;
    if (fork() == 0) {
        dup2(to_program[0], 0);
        dup2(from_program[1], 1);
        close(to_program[1]);
        close(from_program[0]);
        execl(words[1], words[1], "serve", (char *)NULL);
        _exit(127);
    }
    close(to_program[0]);
    close(from_program[1]);
    trip("1 mkdir /a\n");
    trip("1 alloc /a 0\n");
    clock_gettime(CLOCK_MONOTONIC, &from);
    for (long at = 0; at < count; at += 2) {
        trip("1 get 0\n");
        trip("1 put 0\n");
    }
    clock_gettime(CLOCK_MONOTONIC, &to);
    double seconds = (double)(to.tv_sec - from.tv_sec) + (double)(to.tv_nsec - from.tv_nsec) / 1e9;
    printf("%.0f round trips a second\n", (double)count / seconds);
    return 0;
}
