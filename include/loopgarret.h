/* Loopgarret: compile, run and walk PL/0 rule sheets, and list their code.
 *
 * Four functions. It is proved of each that, whatever is lent and whatever it holds, it returns, touches nothing that it was
 * not lent, and leaves every lent list exactly as said below: the contracts in crates/engine_c/src/lib.rt say it in full.
 * Nothing is kept between calls, so calls on different lists may go on side by side.
 *
 * A list is lent as a pointer and a count of its elements; each function tests the counts itself. A pointer with the count 0 may
 * be null. What no function can test, and the caller must see to: a pointer with another count points to that many elements,
 * aligned for their type, and no list that is written to overlaps another.
 *
 * Every answer has a number: LOOPGARRET_DONE, or the one reason of the refusal (the table below). LOOPGARRET_ROOM_TOO_SMALL comes
 * before every other, and after it nothing lent has changed.
 *
 * The library is target/staticlib/libengine.a, for x86-64, made from the crate engine_c; of the C library it needs at most memcpy
 * and memset. examples/run makes it, and builds examples in C and in Rust with it.
 *
 * Stack and time are no part of the proof. Calls nest at most once for each of 64 open constructs, and never by the length of a
 * sheet or the steps of a run. On x86-64 a thread with 118,784 bytes of stack was enough for compile and for walk, and one with
 * 16,384 for run, for the deepest texts that are accepted.
 */
#ifndef LOOPGARRET_H
#define LOOPGARRET_H

#include <stddef.h>
#include <stdint.h>

#ifdef __cplusplus
extern "C" {
#endif

/* Sizes, in elements of the list. More may be lent than is asked for; places past these sizes stay as they were. */
#define LOOPGARRET_SOURCE 32768  /* bytes of a sheet at most: a longer one is refused with 1 */
#define LOOPGARRET_CODE 4096     /* code places: as many as compile fills, and at most as many as run takes */
#define LOOPGARRET_CELLS 4096    /* cells of the machine */
#define LOOPGARRET_VARIABLES 512 /* places for the variables that walk leaves */
#define LOOPGARRET_TREE 98400    /* working room of compile and walk: the tree, .. */
#define LOOPGARRET_TABLE 6144    /* .. the symbol rows, .. */
#define LOOPGARRET_DRAFT 16384   /* .. and the code before it is handed out; 483,712 bytes in all */
#define LOOPGARRET_LISTING 159744 /* bytes of the longest listing, 4,096 lines of 39: in such a room none is refused with 23 */

/* A code place is a kind, a level and an operand, each in a list of its own. The kinds; any other number counts as NIL: */
enum {
    LOOPGARRET_NIL = -1,
    LOOPGARRET_LIT = 0,
    LOOPGARRET_OPR = 1,
    LOOPGARRET_LOD = 2,
    LOOPGARRET_STO = 3,
    LOOPGARRET_STA = 4,
    LOOPGARRET_CAL = 5,
    LOOPGARRET_INT = 6,
    LOOPGARRET_JMP = 7,
    LOOPGARRET_JPC = 8,
    LOOPGARRET_RED = 9,
    LOOPGARRET_WRT = 10
};

/* The numbers that the panel shows. */
enum {
    LOOPGARRET_DONE = 0,                   /* done */
    LOOPGARRET_SOURCE_TOO_LONG = 1,        /* source over 32,768 bytes */
    LOOPGARRET_SOURCE_NOT_ASCII = 2,       /* a source byte of 128 or more, anywhere */
    LOOPGARRET_BAD_TOKEN = 3,              /* a bad token is looked at */
    LOOPGARRET_LITERAL_TOO_BIG = 4,        /* a literal above 9223372036854775807 is looked at */
    LOOPGARRET_TOKEN_MISSING = 5,          /* a required token is not there, or the text ends */
    LOOPGARRET_BODY_FAILED_QUIETLY = 6,    /* the main body failed quietly: a statement place in it has no statement */
    LOOPGARRET_TOO_MANY_OPEN = 7,          /* a 65th construct opens at once */
    LOOPGARRET_TOO_MANY_TOKENS = 8,        /* an 8,193rd token is looked at */
    LOOPGARRET_NAME_TAKEN = 9,             /* name already in this scope */
    LOOPGARRET_NAME_NOT_FOUND = 10,        /* name not found */
    LOOPGARRET_WRONG_KIND = 11,            /* name of the wrong kind */
    LOOPGARRET_WRONG_ARGUMENTS = 12,       /* wrong number of arguments */
    LOOPGARRET_LEVEL_ABOVE = 13,           /* variable or procedure found has a level above the current one */
    LOOPGARRET_TOO_MANY_ROWS = 14,         /* a 513th symbol row */
    LOOPGARRET_TOO_MANY_INSTRUCTIONS = 15, /* a 4,097th instruction; or run or list is given more than 4,096 */
    LOOPGARRET_BUDGET_SPENT = 16,          /* budget spent before the program halted */
    LOOPGARRET_CELL_OUTSIDE = 17,          /* a cell outside 0..4095, or a top outside 0..4096 */
    LOOPGARRET_PLACE_OUTSIDE = 18,         /* a jump, call or return to outside the list, or fetch past its end */
    LOOPGARRET_RESULT_OUTSIDE = 19,        /* a result outside int64_t, also negating or dividing the least value by -1 */
    LOOPGARRET_DIVISION_BY_ZERO = 20,      /* division by zero */
    LOOPGARRET_NOT_AN_OPERATION = 21,      /* NIL, or an OPR number outside 0..16 */
    LOOPGARRET_BAD_ENTRY = 22,             /* next input line bad or missing */
    LOOPGARRET_OUTPUT_FULL = 23,           /* this step's output doesn't fit; or the next line of a listing */
    LOOPGARRET_ROOM_TOO_SMALL = 24,        /* a lent list is shorter than its size above */
    LOOPGARRET_PROCEDURE_IN_TREE = 25      /* walk, and the sheet holds a procedure */
};

/* What compile answers: its number, and the length of the code, which is 0 if the sheet was refused. */
struct loopgarret_compiled {
    uint8_t number;
    size_t length;
};

/* What run and walk answer: number, bytes written, input lines taken, steps completed. The counts are 0 if it was refused before
 * a step; a refused step itself is not counted. */
struct loopgarret_ended {
    uint8_t number;
    size_t out_length;
    size_t lines;
    uint32_t steps;
};

/* What list answers: number, and bytes written. */
struct loopgarret_listed {
    uint8_t number;
    size_t out_length;
};

/* Compiles a sheet.
 * Lent to read: text, the sheet's bytes, of any count.
 * Lent to fill: kinds, levels and operands, LOOPGARRET_CODE places each.
 * Lent as working room: tree, table and draft, LOOPGARRET_TREE, LOOPGARRET_TABLE and LOOPGARRET_DRAFT places; what they hold does not matter.
 * Refusals, in this order: 24; 1; 2; the first of 3 to 8 in reading order; the first of 9 to 15 in the order of the code.
 * Afterwards, but for 24: the first `length` code places hold the code, the others up to LOOPGARRET_CODE hold NIL 0 0, and so do all of them if
 * the sheet was refused; the working room is zero up to its sizes above. The first `length` places can be handed to run as they are. */
struct loopgarret_compiled loopgarret_compile(
    const uint8_t *text, size_t text_count,
    int8_t *kinds, size_t kinds_count,
    uint16_t *levels, size_t levels_count,
    int64_t *operands, size_t operands_count,
    uint32_t *tree, size_t tree_count,
    uint32_t *table, size_t table_count,
    uint32_t *draft, size_t draft_count);

/* Runs a code list, any code list, for at most `budget` steps.
 * Lent to read: kinds, levels and operands; the list is as long as the shortest of them. input, the entries, a line for each read, of any count.
 * Lent to fill: out, the room for output, of any count. cells, LOOPGARRET_CELLS of them; what they hold does not matter, since they are zeroed first.
 * Refusals, in this order: 24; 15; then step by step 16, 18 for the fetch, 21, 17, 18 for the target, 20, 19, 22, 23.
 * Afterwards, but for 24: out holds `out_length` bytes written, and past them what it held; cells holds what the machine's cells held when it
 * ended, zeros with 15. A refused step changed no cell and no output byte and took no input line. */
struct loopgarret_ended loopgarret_run(
    const int8_t *kinds, size_t kinds_count,
    const uint16_t *levels, size_t levels_count,
    const int64_t *operands, size_t operands_count,
    const uint8_t *input, size_t input_count,
    uint32_t budget,
    uint8_t *out, size_t out_count,
    int64_t *cells, size_t cells_count);

/* Works a sheet without procedures out on its tree, for at most `budget` steps.
 * Lent to read: text, the sheet's bytes, and input, the entries, of any count.
 * Lent to fill: out, the room for output, of any count. vars, LOOPGARRET_VARIABLES places for the variables; what they hold does not matter.
 * Lent as working room: tree, table and draft, as for compile.
 * Refusals, in this order: 24; compile's others; 25; then step by step 16, 17, 20, 19, 22, 23.
 * Afterwards, but for 24: vars holds the sheet's variables in the order of their declaration and zero beyond them, up to LOOPGARRET_VARIABLES; zero
 * throughout if the sheet was refused, with 25 too. out holds `out_length` bytes written, and past them what it held. The working room is zero
 * up to its sizes.
 * It ends as the run of the compiled code does, given the same input, budget and room: the same number, output, lines, steps and variables.
 * That is a theorem, crates/agreement. */
struct loopgarret_ended loopgarret_walk(
    const uint8_t *text, size_t text_count,
    const uint8_t *input, size_t input_count,
    uint32_t budget,
    uint8_t *out, size_t out_count,
    int64_t *vars, size_t vars_count,
    uint32_t *tree, size_t tree_count,
    uint32_t *table, size_t table_count,
    uint32_t *draft, size_t draft_count);

/* Writes the listing of a code list, any code list: a line to an instruction, its index right-aligned in 4, `| `, the kind's
 * three letters, a space, the level right-aligned in 4, three spaces, the operand, and a newline, as in
 *     "   0| JMP    0   1\n"
 * Lent to read: kinds, levels and operands; the list is as long as the shortest of them.
 * Lent to fill: out, the room for the listing, of any count; LOOPGARRET_LISTING is enough for every one.
 * Refusals, in this order: 15, with nothing written; 23 at the first line that does not fit, the lines before it kept. There is
 * no 24.
 * Afterwards: out holds `out_length` bytes written, whole lines only, and past them what it held.
 * Two code lists that are listed in full as the same text are the same, but for the numbers of kinds that count as NIL. That is
 * a theorem, crates/listing. */
struct loopgarret_listed loopgarret_list(
    const int8_t *kinds, size_t kinds_count,
    const uint16_t *levels, size_t levels_count,
    const int64_t *operands, size_t operands_count,
    uint8_t *out, size_t out_count);

#ifdef __cplusplus
}
#endif

#endif
