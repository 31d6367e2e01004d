/*
 * Respells the addresses of a sheet and sorts its lines by address: from standard input to standard output.
 *
 *     tools/staticlib
 *     cc -std=c99 -Iinclude examples/sheet.c target/staticlib/libnibharrow.a -o sheet
 *     ./sheet < examples/sheet.csv
 *
 * The exit status is 1 if there is no answer.
 */
#include <inttypes.h>
#include <stdbool.h>
#include <stdio.h>
#include <stdlib.h>

#include "nibharrow.h"

/* Whether an answer is good. If it is not, prints the refusal's number and words. */
static bool accepted(uint32_t refusal)
{
    if (refusal == 0)
        return true;
    uint8_t words[NIBHARROW_REFUSAL_TEXT_ROOM];
    nibharrow_written written = nibharrow_refusal_text(refusal, words, sizeof words);
    fprintf(stderr, "refused %" PRIu32 ": %.*s\n", refusal, (int)written.bytes, (const char *)words);
    return false;
}

int main(void)
{
    /* One byte more than a sheet has at most, so that a longer one is refused and not cut. */
    static uint8_t sheet[NIBHARROW_LONGEST_SHEET + 1], out[NIBHARROW_SHEET_ROOM];
    size_t length = fread(sheet, 1, sizeof sheet, stdin);
    if (ferror(stdin)) {
        perror("standard input");
        return EXIT_FAILURE;
    }

    nibharrow_written answer = nibharrow_respell(sheet, length, 1, out, sizeof out);
    if (!accepted(answer.refusal))
        return EXIT_FAILURE;
    if (fwrite(out, 1, answer.bytes, stdout) < answer.bytes || fflush(stdout) != 0) {
        perror("standard output");
        return EXIT_FAILURE;
    }
    return EXIT_SUCCESS;
}
