/*
 * Calls that C can make and the types of the Rust crate cannot: NULL with length 0 for every pointer, addresses of other
 * sizes or of the wrong family, and numbers that no byte holds. Prints the fields of each answer.
 */
#include <inttypes.h>
#include <stdio.h>
#include <string.h>

#include "nibharrow.h"

#define NOTHING NULL, 0
#define TEXT(text) (const uint8_t *)text, strlen(text)
#define FOUR bytes, 4
#define FIVE bytes, 5
#define SIXTEEN bytes, 16
#define ALL_4 all, 5
#define ALL_6 all, 17

/* Most answers are a nibharrow_written. The others have two fields behind `refusal`, which are named. */
#define WRITTEN(call) \
    do { \
        nibharrow_written answer = nibharrow_##call; \
        printf("%s %" PRIu32 " %zu\n", #call, answer.refusal, answer.bytes); \
    } while (0)
#define ANSWER(type, call, second, third) \
    do { \
        nibharrow_##type answer = nibharrow_##call; \
        printf("%s %" PRIu32 " %zu %zu\n", #call, answer.refusal, (size_t)answer.second, (size_t)answer.third); \
    } while (0)

int main(void)
{
    static const uint8_t bytes[16] = {10, 0, 0, 12};
    static const uint8_t all[17]; /* the block of length 0, as a record of either family */

    WRITTEN(read_address(NOTHING, 0, NOTHING));
    WRITTEN(read_address(TEXT("10.0.0.12"), 0, NOTHING));
    WRITTEN(write_address(NOTHING, NOTHING));
    WRITTEN(write_address(FOUR, NOTHING));
    WRITTEN(read_loose(NOTHING, NOTHING));
    WRITTEN(read_loose(TEXT("0x7f.1"), NOTHING));
    ANSWER(network_read, read_network(NOTHING, NOTHING), size, bytes);
    ANSWER(network_read, read_network(TEXT("193.168"), NOTHING), size, bytes);
    WRITTEN(write_network(NOTHING, 24, NOTHING));
    WRITTEN(write_network(FOUR, 24, NOTHING));
    ANSWER(network_host, split(NOTHING), network, host);
    WRITTEN(join(10, 12, NOTHING));
    ANSWER(block_read, read_block(NOTHING, NOTHING), length, bytes);
    ANSWER(block_read, read_block(TEXT("10.0.0.0/8"), NOTHING), length, bytes);
    WRITTEN(write_block(NOTHING, 32, NOTHING));
    WRITTEN(write_block(FOUR, 32, NOTHING));
    ANSWER(blocks_written, range_blocks(NOTHING, NOTHING, NOTHING), blocks, bytes);
    ANSWER(blocks_written, range_blocks(FOUR, NOTHING, NOTHING), blocks, bytes);
    ANSWER(blocks_written, range_blocks(NOTHING, FOUR, NOTHING), blocks, bytes);
    ANSWER(blocks_written, range_blocks(FOUR, FOUR, NOTHING), blocks, bytes);
    ANSWER(blocks_written, gather(NOTHING, 4, NOTHING), blocks, bytes);
    ANSWER(blocks_written, gather(ALL_4, 4, NOTHING), blocks, bytes);
    ANSWER(blocks_written, gather(NOTHING, 6, NOTHING), blocks, bytes);
    ANSWER(blocks_written, gather(ALL_6, 6, NOTHING), blocks, bytes);
    ANSWER(blocks_written, uncovered(NOTHING, 4, NOTHING), blocks, bytes);
    ANSWER(blocks_written, uncovered(ALL_4, 4, NOTHING), blocks, bytes);
    ANSWER(blocks_written, uncovered(NOTHING, 6, NOTHING), blocks, bytes);
    ANSWER(blocks_written, uncovered(ALL_6, 6, NOTHING), blocks, bytes);
    WRITTEN(respell(NOTHING, 0, NOTHING));
    WRITTEN(respell(NOTHING, 1, NOTHING));
    WRITTEN(respell(TEXT("10.0.0.12,7,650\n"), 0, NOTHING));
    WRITTEN(respell(TEXT("10.0.0.12,7,650\n"), 1, NOTHING));
    WRITTEN(respell(TEXT("10.0.0.12,7,650"), 1, NOTHING));
    WRITTEN(refusal_text(0, NOTHING));
    WRITTEN(refusal_text(1, NOTHING));

    WRITTEN(read_address(TEXT("10.0.0.12"), 5, NOTHING));
    WRITTEN(read_address(TEXT("10.0.0.12"), 256 + 4, NOTHING));
    WRITTEN(write_address(FIVE, NOTHING));
    WRITTEN(write_network(FIVE, 24, NOTHING));
    WRITTEN(write_network(SIXTEEN, 24, NOTHING));
    WRITTEN(write_network(FOUR, 256 + 24, NOTHING));
    ANSWER(network_host, split(FIVE), network, host);
    ANSWER(network_host, split(SIXTEEN), network, host);
    WRITTEN(write_block(FIVE, 32, NOTHING));
    WRITTEN(write_block(FOUR, 256 + 32, NOTHING));
    ANSWER(blocks_written, range_blocks(FOUR, FIVE, NOTHING), blocks, bytes);
    ANSWER(blocks_written, range_blocks(FIVE, SIXTEEN, NOTHING), blocks, bytes);
    ANSWER(blocks_written, range_blocks(FOUR, SIXTEEN, NOTHING), blocks, bytes);
    ANSWER(blocks_written, gather(NOTHING, 5, NOTHING), blocks, bytes);
    ANSWER(blocks_written, gather(ALL_4, 256 + 4, NOTHING), blocks, bytes);
    ANSWER(blocks_written, gather(FOUR, 256 + 6, NOTHING), blocks, bytes);
    ANSWER(blocks_written, uncovered(NOTHING, 5, NOTHING), blocks, bytes);
    ANSWER(blocks_written, uncovered(ALL_4, 256 + 4, NOTHING), blocks, bytes);
    ANSWER(blocks_written, uncovered(FOUR, 256 + 6, NOTHING), blocks, bytes);
    WRITTEN(refusal_text(256 + 1, NOTHING));
    return 0;
}
