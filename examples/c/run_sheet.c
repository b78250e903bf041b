/* Compiles a sheet and runs it, with the engine's static library:  run_sheet SHEET < ENTRIES
 * It writes what the sheet writes, and ends with the number of the refusal, or 0. Built and started by
 *   examples/run c examples/sheets/trimmed_mean.pl0 < examples/sheets/trimmed_mean.entries */
#include <stdio.h>

#include "loopgarret.h"

enum { BUDGET = 10000000, ENTRIES = 65536, OUTPUT = 65536, UNUSABLE = 255 };

static uint8_t text[LOOPGARRET_SOURCE + 1]; /* one byte more, so that a longer sheet is seen and refused */
static int8_t kinds[LOOPGARRET_CODE];
static uint16_t levels[LOOPGARRET_CODE];
static int64_t operands[LOOPGARRET_CODE];
static uint32_t tree[LOOPGARRET_TREE], table[LOOPGARRET_TABLE], draft[LOOPGARRET_DRAFT];
static uint8_t entries[ENTRIES], out[OUTPUT];
static int64_t cells[LOOPGARRET_CELLS];

int main(int argc, char **argv) {
    if (argc != 2) {
        fprintf(stderr, "usage: run_sheet SHEET < ENTRIES\n");
        return UNUSABLE;
    }
    FILE *sheet = fopen(argv[1], "rb");
    size_t bytes = sheet == NULL ? 0 : fread(text, 1, sizeof text, sheet);
    if (sheet == NULL || ferror(sheet)) {
        perror(argv[1]);
        return UNUSABLE;
    }
    fclose(sheet);

    struct loopgarret_compiled code =
        loopgarret_compile(text, bytes, kinds, LOOPGARRET_CODE, levels, LOOPGARRET_CODE, operands, LOOPGARRET_CODE,
                           tree, LOOPGARRET_TREE, table, LOOPGARRET_TABLE, draft, LOOPGARRET_DRAFT);
    if (code.number != LOOPGARRET_DONE) {
        fprintf(stderr, "%s: refused with %d\n", argv[1], code.number);
        return code.number;
    }

    size_t typed = fread(entries, 1, sizeof entries, stdin);
    struct loopgarret_ended end =
        loopgarret_run(kinds, code.length, levels, code.length, operands, code.length, entries, typed, BUDGET,
                       out, sizeof out, cells, LOOPGARRET_CELLS);
    fwrite(out, 1, end.out_length, stdout);
    if (end.number != LOOPGARRET_DONE) fprintf(stderr, "%s: refused with %d\n", argv[1], end.number);
    return end.number;
}
