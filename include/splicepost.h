/* Splicepost: LR(1) tables from coded grammars, and runs of tokens over them. Link libsplicepost_c.a, which `rt lib` in
   crates/splicepost_c makes in its folder out, for x86-64.

   Every call takes rooms that the caller lends, a pointer and a length each; lengths count elements, not bytes. It keeps no pointer,
   allocates nothing, and answers every input. What it gives is proved (docs/PROMISES.md) of a caller who passes what the types say:
   - a pointer leads to as many elements as its length says, aligned as their type is; it may be null only where the length is 0;
   - a room that is written to (table of the builder, work, stack, list, answer) overlaps no other room of the call;
   - nobody else writes to a room, or reads one that is written to, until the call returns.
   How much stack a call takes is no part of what is proved.

   Grammars and tables are records of 8 bytes; numbers of two bytes have their low byte first. docs/FORMATS.md says all of both.

     grammar   0-1 production   2-3 position, 0 the left side   4 kind: 0 nonterminal, 1 terminal   5 zero   6-7 symbol
     table     0-1 state        2 kind: 0 shift, 1 goto, 2 reduction   3 zero   4-5 symbol   6-7 target state, or production

   n is one more than the highest terminal that the grammar names, and Eof, the end of the tokens, is n: it stands in reductions alone.

   A call returns 0, or the number of a refusal, 1 to 21: SPLICEPOST_REFUSED_* below; docs/REFUSALS.md says what each means and what
   its place is. */
#ifndef SPLICEPOST_H
#define SPLICEPOST_H

#include <stddef.h>
#include <stdint.h>

#ifdef __cplusplus
extern "C" {
#endif

/* The modes of the builder. */
#define SPLICEPOST_LANE 0
#define SPLICEPOST_CANONICAL 1

/* Terminals, nonterminals, productions, symbols on a right side: more are refused with 4 and 5. */
#define SPLICEPOST_TERMINALS 62
#define SPLICEPOST_NONTERMINALS 64
#define SPLICEPOST_PRODUCTIONS 128
#define SPLICEPOST_SYMBOLS 16

/* States, and items of all states together: more are refused with 9 and 10. Actions traced at one state in lane mode: 11. */
#define SPLICEPOST_STATES 128
#define SPLICEPOST_ITEMS 2048
#define SPLICEPOST_ACTIONS 16

/* The longest grammar, in bytes; longer ones are refused with 3. */
#define SPLICEPOST_GRAMMAR 4096

/* The numbers that the builder takes of the work room; a shorter one is refused with 2. */
#define SPLICEPOST_WORK 8192

/* The bytes of the longest table: 128 states, each with a goto for each of 64 nonterminals and an action for each of 62 terminals and
   Eof, 8 bytes a record. */
#define SPLICEPOST_TABLE (128 * 127 * 8)

/* The cells of a whole answer: the place, and two counts. */
#define SPLICEPOST_ANSWER 3

/* What a call returns. The builder gives 1 to 14, the driver 3 to 8 and 15 to 21. */
#define SPLICEPOST_DONE 0                     /* built, or accepted */
#define SPLICEPOST_REFUSED_MODE 1             /* no such mode */
#define SPLICEPOST_REFUSED_WORK_ROOM 2        /* the work room is too short */
#define SPLICEPOST_REFUSED_LENGTH 3           /* the grammar is empty, too long, or no multiple of 8 bytes */
#define SPLICEPOST_REFUSED_BAD_RECORD 4       /* a record of the grammar holds what none may; the place is its number */
#define SPLICEPOST_REFUSED_OUT_OF_SEQUENCE 5  /* a record of the grammar stands where it cannot; its number */
#define SPLICEPOST_REFUSED_START_AGAIN 6      /* the start stands in another place than the left of production 0; the production */
#define SPLICEPOST_REFUSED_NO_PRODUCTION 7    /* a nonterminal has no production; which */
#define SPLICEPOST_REFUSED_NO_STRING 8        /* a nonterminal derives no string of terminals; which */
#define SPLICEPOST_REFUSED_STATES 9           /* too many states */
#define SPLICEPOST_REFUSED_ITEMS 10           /* too many items */
#define SPLICEPOST_REFUSED_ACTIONS 11         /* lane mode: too many actions at a state; which */
#define SPLICEPOST_REFUSED_CONFLICTS 12       /* conflicts; how many */
#define SPLICEPOST_REFUSED_FINAL_CHECK 13     /* lane mode: the finished table fails its check; the lowest state that fails */
#define SPLICEPOST_REFUSED_TABLE_ROOM 14      /* the table room is too short; how many records are wanted */
#define SPLICEPOST_REFUSED_TABLE 15           /* the table is malformed; the record */
#define SPLICEPOST_REFUSED_TOKEN 16           /* a token is no terminal of the grammar; which */
#define SPLICEPOST_REFUSED_REJECTED 17        /* rejected: no action on the token; which, or how many there are at the end */
#define SPLICEPOST_REFUSED_BROKEN 18          /* the table is broken; the token, here and below */
#define SPLICEPOST_REFUSED_LIST_FULL 19       /* the list room is full */
#define SPLICEPOST_REFUSED_STACK_FULL 20      /* the stack room is full */
#define SPLICEPOST_REFUSED_STEP_LIMIT 21      /* the step limit is reached */

/* Builds the table of a coded grammar.

   Returns 0 if it is built, and the table's first bytes are its records, 8 bytes each; those behind them stay. Returns 1 to 14 if it is
   refused, and then the table room is as it was. The work room is untouched after 1 and 2, and its first 8,192 numbers are zero after
   every other answer.

   The answer's cells get the place of a refusal, the number of states and the number of records; 0 where there is none. Of a shorter
   answer as many as fit, and of a longer one the other cells stay. */
uint64_t splicepost_build(uint64_t mode,
                          const uint8_t *grammar, size_t grammar_length,
                          uint8_t *table, size_t table_length,
                          uint64_t *work, size_t work_length,
                          uint64_t *answer, size_t answer_length);

/* Runs a table over tokens, one byte each, in at most `limit` steps. The table's bytes are its records alone, 8 for each that the
   builder's answer counts, without the room behind them.

   Returns 0 if the tokens are accepted; 3 to 8, 15 or 16 if grammar, table or tokens are refused, and then stack and list are as they
   were; 17 to 21 if the run stopped. The list's first cells are the productions reduced, in order, as many as the answer says.

   The answer's cells get the place, the steps and the number of productions listed; 0 where there is none. Of a shorter answer as many
   as fit, and of a longer one the other cells stay. */
uint64_t splicepost_drive(const uint8_t *grammar, size_t grammar_length,
                          const uint8_t *table, size_t table_length,
                          const uint8_t *tokens, size_t tokens_length,
                          uint64_t limit,
                          uint16_t *stack, size_t stack_length,
                          uint16_t *list, size_t list_length,
                          uint64_t *answer, size_t answer_length);

#ifdef __cplusplus
}
#endif

#endif
