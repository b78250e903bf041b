/* Compiles a sheet and prints the listing of its code, with the engine's static library:  list_sheet SHEET
 * It ends with the number of the refusal, or 0. Built and started by
 *   examples/run c-list examples/sheets/trimmed_mean.pl0 */
#include <stdio.h>

#include "loopgarret.h"

enum { UNUSABLE = 255 };

static uint8_t text[LOOPGARRET_SOURCE + 1]; /* one byte more, so that a longer sheet is seen and refused */
static int8_t kinds[LOOPGARRET_CODE];
static uint16_t levels[LOOPGARRET_CODE];
static int64_t operands[LOOPGARRET_CODE];
static uint32_t tree[LOOPGARRET_TREE], table[LOOPGARRET_TABLE], draft[LOOPGARRET_DRAFT];
static uint8_t listing[LOOPGARRET_LISTING]; /* room for the longest listing, so that none is refused */

int main(int argc, char **argv) {
    if (argc != 2) {
        fprintf(stderr, "usage: list_sheet SHEET\n");
        return UNUSABLE;
    }
    FILE *sheet = fopen(argv[1], "rb");
    size_t bytes = sheet == NULL ? 0 : fread(text, 1, sizeof text, sheet);
    if (sheet == NULL || ferror(sheet)) {
        perror(argv[1]);
        return UNUSABLE;
    }
    fclose(sheet);

    struct loopgarret_compiled code =
        loopgarret_compile(text, bytes, kinds, LOOPGARRET_CODE, levels, LOOPGARRET_CODE, operands, LOOPGARRET_CODE,
                           tree, LOOPGARRET_TREE, table, LOOPGARRET_TABLE, draft, LOOPGARRET_DRAFT);
    if (code.number != LOOPGARRET_DONE) {
        fprintf(stderr, "%s: refused with %d\n", argv[1], code.number);
        return code.number;
    }

    struct loopgarret_listed listed =
        loopgarret_list(kinds, code.length, levels, code.length, operands, code.length, listing, sizeof listing);
    fwrite(listing, 1, listed.out_length, stdout);
    return listed.number;
}
