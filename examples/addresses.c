/*
 * Reads addresses and writes their normal text, then turns a range of addresses into blocks.
 *
 *     tools/staticlib
 *     cc -std=c99 -Iinclude examples/addresses.c target/staticlib/libnibharrow.a -o addresses
 *     ./addresses 2001:DB8:0:0:1:0:0:1 010.0.0.12
 *
 * With no arguments it reads the examples in main. The exit status is 1 if the range has no answer.
 */
#include <inttypes.h>
#include <stdbool.h>
#include <stdio.h>
#include <stdlib.h>
#include <string.h>

#include "nibharrow.h"

/* Prints a text and ends the line. No zero byte is behind the text, so its length goes with it. */
static void print_line(const uint8_t *text, size_t length)
{
    printf("%.*s\n", (int)length, (const char *)text);
}

/* Whether an answer is good. If it is not, prints the refusal's number and words. */
static bool accepted(uint32_t refusal)
{
    if (refusal == 0)
        return true;
    uint8_t words[NIBHARROW_REFUSAL_TEXT_ROOM];
    nibharrow_written written = nibharrow_refusal_text(refusal, words, sizeof words);
    printf("refused %" PRIu32 ": ", refusal);
    print_line(words, written.bytes); /* 0 bytes, had there been no words for this number */
    return false;
}

/* Reads an address of either family. Answers how many bytes it has, 4 or 16, or 0 if the text is refused. */
static size_t read_either(const char *text, uint8_t address[NIBHARROW_ADDRESS_ROOM])
{
    const uint8_t *bytes = (const uint8_t *)text;
    nibharrow_written read = nibharrow_read_address(bytes, strlen(text), 0, address, NIBHARROW_ADDRESS_ROOM);
    return accepted(read.refusal) ? read.bytes : 0;
}

/* Prints the normal text of an address. */
static void print_normal(const char *text)
{
    uint8_t address[NIBHARROW_ADDRESS_ROOM], normal[NIBHARROW_TEXT_ROOM];
    printf("%s -> ", text);
    size_t bytes = read_either(text, address);
    if (bytes == 0)
        return;
    nibharrow_written written = nibharrow_write_address(address, bytes, normal, sizeof normal);
    if (accepted(written.refusal))
        print_line(normal, written.bytes);
}

/* Prints the blocks of a range, one on each line. Answers whether it could. */
static bool print_blocks(const char *first_text, const char *last_text)
{
    uint8_t first[NIBHARROW_ADDRESS_ROOM], last[NIBHARROW_ADDRESS_ROOM];
    size_t first_bytes = read_either(first_text, first);
    size_t last_bytes = read_either(last_text, last);
    if (first_bytes == 0 || last_bytes == 0)
        return false;

    /* The larger of the two rooms suffices for a range of either family. */
    uint8_t records[NIBHARROW_RANGE_ROOM_6];
    nibharrow_blocks_written range =
        nibharrow_range_blocks(first, first_bytes, last, last_bytes, records, sizeof records);
    if (!accepted(range.refusal))
        return false;

    printf("%s to %s: %zu blocks\n", first_text, last_text, range.blocks);
    for (size_t at = 0; at < range.bytes; at += first_bytes + 1) {
        /* A record is an address and one byte behind it, the prefix length. */
        const uint8_t *record = records + at;
        uint8_t text[NIBHARROW_BLOCK_TEXT_ROOM];
        nibharrow_written written = nibharrow_write_block(record, first_bytes, record[first_bytes], text, sizeof text);
        if (!accepted(written.refusal))
            return false;
        print_line(text, written.bytes);
    }
    return true;
}

int main(int argc, char **argv)
{
    for (int i = 1; i < argc; i++)
        print_normal(argv[i]);
    if (argc < 2) {
        print_normal("10.0.0.12");
        print_normal("010.0.0.12");
        print_normal("2001:DB8:0:0:1:0:0:1");
        print_normal("0:0:0:0:0:FFFF:204.152.189.116");
    }
    return print_blocks("10.0.0.1", "10.0.0.6") ? EXIT_SUCCESS : EXIT_FAILURE;
}
