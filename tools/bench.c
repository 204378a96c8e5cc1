// What tools/bench runs: `splicepost_build` on each job, and beside it the oracle's worker.
//
//     bench                         a line for each job: number, place, states, records
//     bench ORACLE CLOCK ROUNDS     the same, and behind it the least nanoseconds of the call and of the Rust, and how often each was timed
//
// A job on standard input is as the oracle reads it: a byte mode, four bytes length, the coded grammar. CLOCK is bench_clock.c as a shared
// object. Call and Rust are timed in turn, until neither least time has fallen by more than two in a hundred for ROUNDS turns.
#define _GNU_SOURCE
#include <stdio.h>
#include <stdlib.h>
#include <string.h>
#include <time.h>
#include <unistd.h>

#include "splicepost.h"

enum { WORK = SPLICEPOST_WORK, TABLE = SPLICEPOST_TABLE, GRAMMAR = SPLICEPOST_GRAMMAR };

struct job {
    uint8_t bytes[5 + GRAMMAR];
    uint32_t length;
};

static uint8_t table[TABLE];
static uint64_t work[WORK], answer[3];

static void fail(const char *what) {
    fprintf(stderr, "bench: %s\n", what);
    exit(1);
}

static int next_job(struct job *job) {
    if (fread(job->bytes, 1, 5, stdin) != 5)
        return 0;
    memcpy(&job->length, job->bytes + 1, 4);
    if (job->length > GRAMMAR || fread(job->bytes + 5, 1, job->length, stdin) != job->length)
        fail("a job is cut or too long");
    return 1;
}

static uint64_t build(const struct job *job) {
    return splicepost_build(job->bytes[0], job->bytes + 5, job->length, table, TABLE, work, WORK, answer, 3);
}

static uint64_t now(void) {
    struct timespec t;
    clock_gettime(CLOCK_MONOTONIC, &t);
    return (uint64_t)t.tv_sec * 1000000000 + (uint64_t)t.tv_nsec;
}

static uint64_t time_build(const struct job *job) {
    uint64_t from = now();
    build(job);
    return now() - from;
}

static int to_worker;
static FILE *from_worker;

static void start_worker(char *oracle, char *clock) {
    int in[2], out[2];
    if (pipe(in) || pipe(out))
        fail("no pipe");
    pid_t child = fork();
    if (child < 0)
        fail("no process");
    if (child == 0) {
        dup2(in[0], 0);
        dup2(out[1], 1);
        close(in[1]);
        close(out[0]);
        setenv("LD_PRELOAD", clock, 1);
        execl(oracle, oracle, "--worker", (char *)NULL);
        _exit(127);
    }
    close(in[0]);
    close(out[1]);
    to_worker = in[1];
    from_worker = fdopen(out[0], "r");
}

static char *read_line(void) {
    static char *line;
    static size_t room;
    if (getline(&line, &room, from_worker) < 0)
        fail("the worker ended");
    return line;
}

static uint64_t time_rust(const struct job *job) {
    size_t length = 5 + job->length;
    if (write(to_worker, job->bytes, length) != (ssize_t)length)
        fail("the worker takes no job");
    if (read_line()[0] != 'P')
        fail("the worker's first line does not begin with P");
    char *end, *line = read_line();
    uint64_t took = strtoull(line, &end, 10);
    if (end == line || *end != '\n')
        fail("the worker tells no time: it has to be linked with C's library as a shared object");
    read_line();
    return took;
}

// The least time, and the turn in which it last fell by more than two in a hundred.
struct least {
    uint64_t time, fell_to;
    int turn;
};

static void put(struct least *least, uint64_t time, int turn) {
    if (time < least->time)
        least->time = time;
    if (least->time < least->fell_to - least->fell_to / 50) {
        least->fell_to = least->time;
        least->turn = turn;
    }
}

static void time_both(const struct job *job, int rounds) {
    struct least own = {UINT64_MAX, UINT64_MAX, 0}, rust = own;
    int turn = 0;
    do {
        turn++;
        put(&own, time_build(job), turn);
        put(&rust, time_rust(job), turn);
    } while (turn < own.turn + rounds || turn < rust.turn + rounds);
    printf(" %lu %lu %d", own.time, rust.time, turn);
}

int main(int count, char **words) {
    static struct job job;
    if (count != 1 && count != 4)
        fail("bench [ORACLE CLOCK ROUNDS] < JOBS");
    if (count == 4)
        start_worker(words[1], words[2]);
    while (next_job(&job)) {
        uint64_t number = build(&job);
        printf("%lu %lu %lu %lu", number, answer[0], answer[1], answer[2]);
        if (count == 4)
            time_both(&job, atoi(words[3]));
        printf("\n");
    }
    return 0;
}
