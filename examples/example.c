/* S -> A, A -> a built, its table driven over a, over a a, which is rejected, and over what is no token, and a room too short for the table. */
#include <inttypes.h>
#include <stdio.h>

#include "splicepost.h"

/* 0: S -> A, 1: A -> a. S is nonterminal 0, A is 1, a is terminal 0. */
static const uint8_t grammar[] = {
    0, 0, 0, 0, 0, 0, 0, 0, /* production 0, position 0: nonterminal 0 */
    0, 0, 1, 0, 0, 0, 1, 0, /* position 1: nonterminal 1 */
    1, 0, 0, 0, 0, 0, 1, 0, /* production 1, position 0: nonterminal 1 */
    1, 0, 1, 0, 1, 0, 0, 0, /* position 1: terminal 0 */
};

static uint8_t table[SPLICEPOST_TABLE];
static uint64_t work[SPLICEPOST_WORK];
static uint16_t stack[64];
static uint16_t list[64];

/* The number in two bytes, the low one first. */
static unsigned number_at(const uint8_t *bytes) {
    return bytes[0] + 256u * bytes[1];
}

/* What the refusals of this example mean. */
static const char *meaning(uint64_t refusal) {
    switch (refusal) {
    case SPLICEPOST_REFUSED_TABLE_ROOM:
        return "the table room is too short for so many records";
    case SPLICEPOST_REFUSED_TOKEN:
        return "this token is no terminal of the grammar";
    case SPLICEPOST_REFUSED_REJECTED:
        return "rejected at this token";
    default:
        return "docs/REFUSALS.md";
    }
}

/* Builds the table in a room of so many bytes, prints it or the refusal, and returns the number of records. */
static size_t build(size_t room) {
    uint64_t answer[SPLICEPOST_ANSWER];
    uint64_t refusal = splicepost_build(SPLICEPOST_LANE, grammar, sizeof grammar, table, room, work, SPLICEPOST_WORK, answer, SPLICEPOST_ANSWER);
    if (refusal != SPLICEPOST_DONE) {
        printf("refused %" PRIu64 " %" PRIu64 ": %s\n", refusal, answer[0], meaning(refusal));
        return 0;
    }
    printf("built %" PRIu64 " states %" PRIu64 " records\n", answer[1], answer[2]);
    for (const uint8_t *record = table; record < table + 8 * answer[2]; record += 8) {
        printf("%u %c %u %u\n", number_at(record), "sgr"[record[2]], number_at(record + 4), number_at(record + 6));
    }
    return answer[2];
}

/* Drives the table over tokens, and prints steps, list length and the productions listed, or how the run ended. */
static void drive(size_t records, const uint8_t *tokens, size_t length) {
    uint64_t answer[SPLICEPOST_ANSWER];
    uint64_t refusal = splicepost_drive(grammar, sizeof grammar, table, 8 * records, tokens, length, 1000, stack, 64, list, 64, answer, SPLICEPOST_ANSWER);
    if (refusal >= SPLICEPOST_REFUSED_REJECTED) {
        printf("refused %" PRIu64 " %" PRIu64 " %" PRIu64 " %" PRIu64 ": %s\n", refusal, answer[0], answer[1], answer[2], meaning(refusal));
        return;
    }
    if (refusal != SPLICEPOST_DONE) {
        printf("refused %" PRIu64 " %" PRIu64 ": %s\n", refusal, answer[0], meaning(refusal));
        return;
    }
    printf("accepted %" PRIu64 " %" PRIu64 "\n", answer[1], answer[2]);
    for (size_t i = 0; i < answer[2]; i++) {
        printf("%u\n", (unsigned)list[i]);
    }
}

int main(void) {
    const uint8_t twice[] = {0, 0};
    const uint8_t unknown[] = {1};
    size_t records = build(sizeof table);
    drive(records, twice, 1);
    drive(records, twice, 2);
    drive(records, unknown, 1);
    build(24);
    return 0;
}
