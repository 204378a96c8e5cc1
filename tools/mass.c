/* Calls the library on many grammars and tables, and holds each answer and each lent room to what is expected.

       mass compare JOBS < ANSWERS     grammars as the oracle reads them, and its lines
       mass build < CASES              grammars with the answer that is expected: tools/mass_damage
       mass drive < CASES              driver cases as tools/driver_cases.py stores them

   Every room lies at a page that can neither be read nor written, by turns behind the page and in front of it, and has a margin on
   its other side. Room and margin are filled with random bytes, other ones for each call. What is lent to be read lies in the same way.

   A line of the output is a count and what was counted. A line that begins with `differs` is a case that is not as expected.
*/
#define _GNU_SOURCE
#include <signal.h>
#include <stdbool.h>
#include <stdio.h>
#include <stdlib.h>
#include <string.h>
#include <sys/mman.h>
#include <unistd.h>
#include "splicepost.h"

enum { PAGE = 4096, MARGIN = 256, WORK = 8192, TABLE = 131072, MOST = 262144, SECONDS = 60 };

static void stop(const char *why)
{
    fprintf(stderr, "mass: %s\n", why);
    exit(2);
}

/* ---- rooms */

static uint8_t noise[MOST + MARGIN + PAGE];

static void make_noise(void)
{
    uint64_t x = 88172645463325252u;
    for (size_t i = 0; i < sizeof noise; i++) {
        x ^= x << 13, x ^= x >> 7, x ^= x << 17;
        noise[i] = x >> 32;
    }
}

struct room {
    uint8_t *pages;        /* MOST bytes and a margin, between two pages that are closed */
    uint8_t *at;           /* where the room begins */
    size_t length;         /* in bytes */
    uint8_t *margin;
    const uint8_t *was;    /* what was put into the room, and into the margin */
    const uint8_t *margin_was;
};

static struct room grammar_room, table_room, tokens_room, work_room, stack_room, list_room, answer_room;
static struct room *const rooms[] = {&grammar_room, &table_room, &tokens_room, &work_room, &stack_room, &list_room, &answer_room};
enum { ROOMS = sizeof rooms / sizeof rooms[0] };

static void make_rooms(void)
{
    size_t size = MOST + PAGE;
    for (int i = 0; i < ROOMS; i++) {
        uint8_t *all = mmap(NULL, size + 2 * PAGE, PROT_NONE, MAP_PRIVATE | MAP_ANONYMOUS, -1, 0);
        if (all == MAP_FAILED || mprotect(all + PAGE, size, PROT_READ | PROT_WRITE) != 0)
            stop("no memory for the rooms");
        rooms[i]->pages = all + PAGE;
    }
}

/* Lends a room of as many bytes. */
static void *lend(struct room *room, size_t length)
{
    static unsigned turn;
    if (length > MOST)
        stop("a room is too long");
    turn++;
    const uint8_t *bytes = noise + 8 * (turn % (PAGE / 8));
    bool front = turn / ROOMS % 2;
    room->length = length;
    room->at = front ? room->pages : room->pages + MOST + PAGE - length;
    room->margin = front ? room->at + length : room->at - MARGIN;
    room->was = bytes;
    room->margin_was = bytes + length;
    memcpy(room->at, room->was, length);
    memcpy(room->margin, room->margin_was, MARGIN);
    return room->at;
}

/* Lends bytes to be read. They stay where they are until the call is over. */
static void *lend_bytes(struct room *room, const uint8_t *bytes, size_t length)
{
    lend(room, length);
    room->was = bytes;
    memcpy(room->at, bytes, length);
    return room->at;
}

/* The bytes of a room from `from` on are what they were. */
static bool kept(const struct room *room, size_t from)
{
    return from >= room->length || memcmp(room->at + from, room->was + from, room->length - from) == 0;
}

static bool margin_kept(const struct room *room)
{
    return memcmp(room->margin, room->margin_was, MARGIN) == 0;
}

/* The first `length` bytes of a room are these. */
static bool holds(const struct room *room, const void *bytes, size_t length)
{
    return length <= room->length && memcmp(room->at, bytes, length) == 0;
}

/* ---- a call that does not come back */

static uint64_t cases;     /* how many were begun */

static void report_crash(int signal)
{
    char line[80];
    int length = snprintf(line, sizeof line, "crashed by signal %d in case %llu\n", signal, (unsigned long long)cases);
    _exit(write(1, line, length) == length ? 3 : 4);
}

static void watch_crashes(void)
{
    static uint8_t stack[65536];
    static const int signals[] = {SIGSEGV, SIGBUS, SIGILL, SIGFPE, SIGABRT, SIGALRM};
    stack_t other = {.ss_sp = stack, .ss_size = sizeof stack};
    struct sigaction action = {.sa_handler = report_crash, .sa_flags = SA_ONSTACK};
    sigaltstack(&other, NULL);
    for (size_t i = 0; i < sizeof signals / sizeof signals[0]; i++)
        sigaction(signals[i], &action, NULL);
}

/* ---- calls; each gives NULL or what is not as expected */

struct answer {
    uint64_t number;
    uint64_t cells[3];     /* place; states and records, or steps and list length */
};

static const char *answer_fault(struct answer expected, uint64_t number)
{
    size_t cells = answer_room.length / 8, told = cells < 3 ? cells : 3;
    if (number != expected.number)
        return "number";
    if (!holds(&answer_room, expected.cells, 8 * told))
        return "place or counts";
    if (!kept(&answer_room, 8 * told))
        return "answer room behind its third cell";
    return NULL;
}

static const char *margins_fault(void)
{
    for (int i = 0; i < ROOMS; i++)
        if (rooms[i]->at && !margin_kept(rooms[i]))
            return "margin of a room";
    return NULL;
}

/* The table's bytes count where a table is expected. */
static const char *build(uint64_t mode, const uint8_t *grammar, size_t length, size_t table_length, size_t work_numbers, size_t answer_cells,
                         struct answer expected, const uint8_t *table)
{
    static const uint64_t zeros[WORK];
    lend_bytes(&grammar_room, grammar, length);
    lend(&table_room, table_length);
    lend(&work_room, 8 * work_numbers);
    lend(&answer_room, 8 * answer_cells);
    alarm(SECONDS);
    uint64_t number = splicepost_build(mode, grammar_room.at, length, table_room.at, table_length, (uint64_t *)work_room.at, work_numbers,
                                       (uint64_t *)answer_room.at, answer_cells);
    alarm(0);
    const char *fault = answer_fault(expected, number);
    if (fault)
        return fault;
    size_t written = expected.number == 0 ? 8 * expected.cells[2] : 0;
    if (!holds(&table_room, table, written))
        return "table";
    if (!kept(&table_room, written))
        return "table room behind the table";
    size_t cleared = expected.number == 1 || expected.number == 2 ? 0 : 8 * WORK;
    if (!holds(&work_room, zeros, cleared))
        return "work room not cleared";
    if (!kept(&work_room, cleared))
        return "work room behind its first 8,192 numbers, or after 1 or 2";
    if (!kept(&grammar_room, 0))
        return "grammar written to";
    return margins_fault();
}

struct drive_case {
    const uint8_t *grammar, *table, *tokens;
    size_t grammar_length, table_length, tokens_length;
    uint64_t limit;
    size_t stack_numbers, list_numbers;
    const uint16_t *stack, *list;      /* the cells that were put */
    size_t stack_put, list_put;
};

static const char *drive(const struct drive_case *c, size_t answer_cells, struct answer expected)
{
    lend_bytes(&grammar_room, c->grammar, c->grammar_length);
    lend_bytes(&table_room, c->table, c->table_length);
    lend_bytes(&tokens_room, c->tokens, c->tokens_length);
    lend(&stack_room, 2 * c->stack_numbers);
    lend(&list_room, 2 * c->list_numbers);
    lend(&answer_room, 8 * answer_cells);
    alarm(SECONDS);
    uint64_t number = splicepost_drive(grammar_room.at, c->grammar_length, table_room.at, c->table_length, tokens_room.at, c->tokens_length, c->limit,
                                       (uint16_t *)stack_room.at, c->stack_numbers, (uint16_t *)list_room.at, c->list_numbers,
                                       (uint64_t *)answer_room.at, answer_cells);
    alarm(0);
    const char *fault = answer_fault(expected, number);
    if (fault)
        return fault;
    if (!holds(&stack_room, c->stack, 2 * c->stack_put) || !kept(&stack_room, 2 * c->stack_put))
        return "stack";
    if (!holds(&list_room, c->list, 2 * c->list_put) || !kept(&list_room, 2 * c->list_put))
        return "list";
    if (!kept(&grammar_room, 0) || !kept(&table_room, 0) || !kept(&tokens_room, 0))
        return "bytes lent to be read";
    return margins_fault();
}

/* ---- counts */

static uint64_t answers[3][22];        /* lane, canonical, neither; by number */
static uint64_t calls, differing;

static void count_answers(const char *const *names, int modes)
{
    for (int mode = 0; mode < modes; mode++)
        for (int number = 0; number < 22; number++)
            if (answers[mode][number])
                printf("%llu %s %d\n", (unsigned long long)answers[mode][number], names[mode], number);
    printf("%llu calls\n%llu differing\n", (unsigned long long)calls, (unsigned long long)differing);
}

/* A case that differs: what does, the call's numbers, the grammar. */
static void differs(const char *fault, const char *call, const uint8_t *grammar, size_t length)
{
    differing++;
    printf("differs: %s; case %llu, %s; grammar ", fault, (unsigned long long)cases, call);
    for (size_t i = 0; i < length; i++)
        printf("%02x", grammar[i]);
    printf("\n");
}

/* build, counted, and told where it differs */
static void try_build(uint64_t mode, const uint8_t *grammar, size_t length, size_t table_length, size_t work_numbers, size_t answer_cells,
                      struct answer expected, const uint8_t *table)
{
    calls++;
    const char *fault = build(mode, grammar, length, table_length, work_numbers, answer_cells, expected, table);
    if (!fault)
        return;
    char call[200];
    snprintf(call, sizeof call, "mode %llu, table room %zu, work room %zu, answer room %zu, expected %llu at %llu", (unsigned long long)mode, table_length,
             work_numbers, answer_cells, (unsigned long long)expected.number, (unsigned long long)expected.cells[0]);
    differs(fault, call, grammar, length);
}

/* ---- the oracle's lines */

/* The number behind a name in a line, or `otherwise`. */
static uint64_t named(const char *line, const char *name, uint64_t otherwise)
{
    const char *at = strstr(line, name);
    return at ? strtoull(at + strlen(name), NULL, 10) : otherwise;
}

static void put16(uint8_t *at, uint64_t value)
{
    at[0] = value;
    at[1] = value >> 8;
}

/* The table's bytes, from "records":[[state,kind,symbol,target],..]; gives how many records. */
static size_t read_records(const char *line, uint8_t *table)
{
    const char *at = strstr(line, "\"records\":[");
    if (!at)
        stop("the oracle has built and gives no records");
    char *next = (char *)at + strlen("\"records\":[");
    size_t count = 0;
    while (*next == '[' || *next == ',') {
        uint64_t field[4];
        next += *next == ',' ? 2 : 1;
        for (int i = 0; i < 4; i++)
            field[i] = strtoull(next, &next, 10), next++;
        if (8 * ++count > TABLE)
            stop("the oracle's table is too long");
        uint8_t *record = table + 8 * (count - 1);
        put16(record, field[0]);
        record[2] = field[1];
        record[3] = 0;
        put16(record + 4, field[2]);
        put16(record + 6, field[3]);
    }
    return count;
}

/* Document 01's answer in an oracle's line; false where it gives none. */
static bool read_answer(const char *line, struct answer *answer, uint8_t *table)
{
    const char *doc = strstr(line, "\"doc\":\"");
    unsigned long long first, second;
    memset(answer, 0, sizeof *answer);
    if (doc && sscanf(doc, "\"doc\":\"refused %llu %llu\"", &first, &second) == 2) {
        answer->number = first;
        answer->cells[0] = second;
        return true;
    }
    if (!doc || sscanf(doc, "\"doc\":\"built %llu states %llu records\"", &first, &second) != 2)
        return false;
    if (read_records(line, table) != second)
        stop("the oracle's records are not as many as it says");
    answer->cells[1] = first;
    answer->cells[2] = second;
    return true;
}

/* What a lane answer's run had, as the oracle counts it: of all answers, and of those built. */
static const char *const traits[] = {"clones", "reused", "failed_clones", "revisits", "unreached"};
enum { TRAITS = sizeof traits / sizeof traits[0] };
static uint64_t with_trait[TRAITS][2];

static void count_traits(const char *line, struct answer answer)
{
    uint64_t states = named(line, "\"states\":", 0);
    uint64_t found[TRAITS] = {named(line, "\"clones\":", 0), named(line, "\"reused\":", 0), named(line, "\"failed_clones\":", 0),
                              named(line, "\"revisits\":", 0), named(line, "\"reachable\":", states) < states};
    for (int i = 0; i < TRAITS; i++)
        if (found[i]) {
            with_trait[i][0]++;
            with_trait[i][1] += answer.number == 0;
        }
}

/* ---- the commands */

static uint8_t grammar[MOST], table[MOST];

/* Reads exactly as many bytes; false at the end of the file. */
static bool get(FILE *from, void *to, size_t length)
{
    size_t got = fread(to, 1, length, from);
    if (got != 0 && got != length)
        stop("the input ends within a case");
    return length == 0 || got == length;
}

/* A table that is built is asked for again, in rooms one record and one byte too short, with just room enough, and without any. */
static void try_rooms(uint64_t mode, size_t length, struct answer built)
{
    size_t wanted = 8 * built.cells[2];
    struct answer short_of = {14, {built.cells[2], 0, 0}};
    size_t cells = cases % 7;
    try_build(mode, grammar, length, wanted - 8, WORK, cells, short_of, table);
    try_build(mode, grammar, length, wanted - 1, WORK, 6 - cells, short_of, table);
    try_build(mode, grammar, length, wanted, WORK + 8, cells, built, table);
    try_build(mode, grammar, length, 0, WORK, 3, short_of, table);
}

static void compare(FILE *jobs)
{
    static const char *const modes[] = {"lane", "canonical"};
    uint64_t unknown = 0, panics = 0, rooms_tried = 0, most_records = 0;
    uint8_t head[5];
    char *line = NULL;
    size_t space = 0;
    while (get(jobs, head, sizeof head)) {
        size_t length = head[1] | head[2] << 8 | head[3] << 16 | (size_t)head[4] << 24;
        if (head[0] > 1 || length > MOST || !get(jobs, grammar, length))
            stop("the jobs are not as the oracle reads them");
        if (getline(&line, &space, stdin) < 0)
            stop("the oracle has fewer answers than jobs");
        cases++;
        struct answer answer;
        if (!read_answer(line, &answer, table)) {
            bool panic = strstr(line, "\"panic\":true") != NULL;
            panics += panic;
            unknown += !panic;
            continue;
        }
        answers[head[0]][answer.number]++;
        try_build(head[0], grammar, length, TABLE, cases % 4 ? WORK : WORK + 8, 3 + cases % 4, answer, table);
        if (head[0] == 0)
            count_traits(line, answer);
        if (answer.number == 0 && cases % 5 == 0) {
            rooms_tried++;
            try_rooms(head[0], length, answer);
        }
        if (answer.cells[2] > most_records)
            most_records = answer.cells[2];
    }
    if (getline(&line, &space, stdin) >= 0)
        stop("the oracle has more answers than jobs");
    free(line);
    count_answers(modes, 2);
    for (int i = 0; i < TRAITS; i++)
        printf("%llu %s\n%llu %s built\n", (unsigned long long)with_trait[i][0], traits[i], (unsigned long long)with_trait[i][1], traits[i]);
    printf("%llu jobs\n%llu unknown\n%llu panics\n%llu tables in four rooms\n%llu most records\n", (unsigned long long)cases, (unsigned long long)unknown,
           (unsigned long long)panics, (unsigned long long)rooms_tried, (unsigned long long)most_records);
}

/* A case: eleven numbers of eight bytes, then the grammar, then the table that is expected. */
static void build_cases(void)
{
    static const char *const modes[] = {"lane", "canonical", "other"};
    struct { uint64_t mode, table_length, work_numbers, answer_cells, number, cells[3], grammar_length, written, zero; } c;
    while (get(stdin, &c, sizeof c)) {
        if (c.grammar_length > MOST || c.written > MOST || !get(stdin, grammar, c.grammar_length) || !get(stdin, table, c.written) || c.number > 21 || c.zero)
            stop("a case is not as it should be");
        cases++;
        struct answer answer = {c.number, {c.cells[0], c.cells[1], c.cells[2]}};
        answers[c.mode < 2 ? c.mode : 2][c.number]++;
        try_build(c.mode, grammar, c.grammar_length, c.table_length, c.work_numbers, c.answer_cells, answer, table);
    }
    count_answers(modes, 3);
}

/* The list of cases that tools/driver_cases.py describes. */
static void drive_cases(void)
{
    static const char *const names[] = {"drive"};
    uint32_t shared_length, n[15];
    if (!get(stdin, &shared_length, 4))
        stop("no list of cases");
    uint8_t *shared = malloc(shared_length + 1);
    if (!shared || !get(stdin, shared, shared_length))
        stop("the list of cases is cut");
    while (get(stdin, n, sizeof n)) {
        static uint16_t stack[MOST], list[MOST];
        if (n[14] > MOST || n[13] > MOST || n[10] > 21)
            stop("a case is not as it should be");
        for (int i = 0; i < 6; i += 2)
            if (n[i] > shared_length || n[i + 1] > shared_length - n[i])
                stop("a case is not within the shared bytes");
        for (uint32_t i = 0; i < n[14] + n[13]; i++) {
            uint8_t byte;
            if (!get(stdin, &byte, 1))
                stop("the cells of a case are cut");
            *(i < n[14] ? &stack[i] : &list[i - n[14]]) = byte;
        }
        cases++, calls++;
        struct drive_case c = {.grammar = shared + n[0], .grammar_length = n[1], .table = shared + n[2], .table_length = n[3], .tokens = shared + n[4],
                               .tokens_length = n[5], .limit = n[6] | (uint64_t)n[7] << 32, .stack_numbers = n[8], .list_numbers = n[9],
                               .stack = stack, .list = list, .stack_put = n[14], .list_put = n[13]};
        struct answer answer = {n[10], {n[11], n[12], n[13]}};
        answers[0][n[10]]++;
        const char *fault = drive(&c, cases % 7, answer);
        if (fault) {
            char call[200];
            snprintf(call, sizeof call, "driver, limit %llu, stack room %zu, list room %zu, expected %u at %u", (unsigned long long)c.limit,
                     c.stack_numbers, c.list_numbers, n[10], n[11]);
            differs(fault, call, c.grammar, c.grammar_length);
        }
    }
    count_answers(names, 1);
    free(shared);
}

int main(int count, char **words)
{
    const char *command = count > 1 ? words[1] : "";
    setvbuf(stdout, NULL, _IOLBF, 1 << 16);
    make_noise();
    make_rooms();
    watch_crashes();
    if (!strcmp(command, "compare") && count == 3) {
        FILE *jobs = fopen(words[2], "rb");
        if (!jobs)
            stop("the jobs cannot be read");
        compare(jobs);
        fclose(jobs);
    } else if (!strcmp(command, "build") && count == 2) {
        build_cases();
    } else if (!strcmp(command, "drive") && count == 2) {
        drive_cases();
    } else {
        stop("compare JOBS, build, or drive is wanted");
    }
    return 0;
}
