/*
 * Gathers blocks into the fewest that cover the same addresses, and tells what they do not cover.
 *
 *     tools/staticlib
 *     cc -std=c99 -Iinclude examples/lists.c target/staticlib/libnibharrow.a -o lists
 *     ./lists 2001:db8::/33 2001:db8:8000::/33
 *
 * With no arguments it takes the blocks in main. The exit status is 1 if there is no answer.
 */
#include <inttypes.h>
#include <stdbool.h>
#include <stdio.h>
#include <stdlib.h>
#include <string.h>

#include "nibharrow.h"

/* Records end to end, with room for those of either family. */
struct list {
    uint8_t records[NIBHARROW_GATHER_ROOM_6];
    size_t bytes;
    size_t octets; /* how many bytes the address of each has, 4 or 16: the first block's family is that of all */
};

/* Whether an answer is good. If it is not, prints the refusal's number and words. */
static bool accepted(uint32_t refusal)
{
    if (refusal == 0)
        return true;
    uint8_t words[NIBHARROW_REFUSAL_TEXT_ROOM];
    nibharrow_written written = nibharrow_refusal_text(refusal, words, sizeof words);
    printf("refused %" PRIu32 ": %.*s\n", refusal, (int)written.bytes, (const char *)words);
    return false;
}

/* Reads a block and puts it behind the others as a record. Answers whether it could. */
static bool add(struct list *list, const char *text)
{
    uint8_t address[NIBHARROW_ADDRESS_ROOM];
    nibharrow_block_read read = nibharrow_read_block((const uint8_t *)text, strlen(text), address, sizeof address);
    if (!accepted(read.refusal))
        return false;
    if (list->bytes == 0)
        list->octets = read.bytes;
    if (read.bytes != list->octets)
        return accepted(NIBHARROW_WRONG_FAMILY);
    if (sizeof list->records - list->bytes < read.bytes + 1)
        return accepted(NIBHARROW_TOO_MANY);
    memcpy(list->records + list->bytes, address, read.bytes);
    list->bytes += read.bytes;
    list->records[list->bytes++] = (uint8_t)read.length;
    return true;
}

/* Prints the blocks of an answer, one on each line. Answers whether it could. */
static bool print_blocks(const char *title, nibharrow_blocks_written answer, const uint8_t *records, size_t octets)
{
    if (!accepted(answer.refusal))
        return false;
    printf("%s: %zu\n", title, answer.blocks);
    for (size_t at = 0; at < answer.bytes; at += octets + 1) {
        const uint8_t *record = records + at;
        uint8_t text[NIBHARROW_BLOCK_TEXT_ROOM];
        nibharrow_written written = nibharrow_write_block(record, octets, record[octets], text, sizeof text);
        if (!accepted(written.refusal))
            return false;
        printf("%.*s\n", (int)written.bytes, (const char *)text);
    }
    return true;
}

int main(int argc, char **argv)
{
    static const char *const blocks[] = {"192.0.0.0/3", "128.0.0.0/2", "10.0.0.0/8", "0.0.0.0/2", "224.0.0.0/3"};
    static struct list list;
    for (int i = 1; i < argc; i++) {
        if (!add(&list, argv[i]))
            return EXIT_FAILURE;
    }
    for (size_t i = 0; argc < 2 && i < sizeof blocks / sizeof *blocks; i++) {
        if (!add(&list, blocks[i]))
            return EXIT_FAILURE;
    }

    /* What is not covered may be longer than a stack has room for. */
    static uint8_t gathered[NIBHARROW_GATHER_ROOM_6], rest[NIBHARROW_UNCOVERED_ROOM_6];
    uint32_t family = list.octets == 4 ? 4 : 6;
    nibharrow_blocks_written answer = nibharrow_gather(list.records, list.bytes, family, gathered, sizeof gathered);
    if (!print_blocks("blocks gathered", answer, gathered, list.octets))
        return EXIT_FAILURE;
    answer = nibharrow_uncovered(list.records, list.bytes, family, rest, sizeof rest);
    if (!print_blocks("blocks not covered", answer, rest, list.octets))
        return EXIT_FAILURE;
    return EXIT_SUCCESS;
}
