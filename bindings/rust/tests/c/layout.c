/* Prints the layout of each answer and the value of each constant, as the C compiler has them. */
#include <stdio.h>

#include "nibharrow.h"

#define TYPE(type) printf("%s %zu %zu\n", #type, sizeof(type), _Alignof(type))
#define FIELD(type, field) \
    printf("%s.%s %zu %zu\n", #type, #field, offsetof(type, field), sizeof(((type *)0)->field))
#define VALUE(name) printf("%s %d\n", #name, (int)name)

int main(void)
{
    TYPE(nibharrow_written);
    FIELD(nibharrow_written, refusal);
    FIELD(nibharrow_written, bytes);

    TYPE(nibharrow_network_read);
    FIELD(nibharrow_network_read, refusal);
    FIELD(nibharrow_network_read, size);
    FIELD(nibharrow_network_read, bytes);

    TYPE(nibharrow_network_host);
    FIELD(nibharrow_network_host, refusal);
    FIELD(nibharrow_network_host, network);
    FIELD(nibharrow_network_host, host);

    TYPE(nibharrow_block_read);
    FIELD(nibharrow_block_read, refusal);
    FIELD(nibharrow_block_read, length);
    FIELD(nibharrow_block_read, bytes);

    TYPE(nibharrow_blocks_written);
    FIELD(nibharrow_blocks_written, refusal);
    FIELD(nibharrow_blocks_written, blocks);
    FIELD(nibharrow_blocks_written, bytes);

    VALUE(NIBHARROW_MOST_RECORDS);
    VALUE(NIBHARROW_MOST_LINES);
    VALUE(NIBHARROW_LONGEST_SHEET);

    VALUE(NIBHARROW_ADDRESS_ROOM);
    VALUE(NIBHARROW_TEXT_ROOM);
    VALUE(NIBHARROW_NETWORK_ROOM);
    VALUE(NIBHARROW_NETWORK_TEXT_ROOM);
    VALUE(NIBHARROW_BLOCK_TEXT_ROOM);
    VALUE(NIBHARROW_RANGE_ROOM_4);
    VALUE(NIBHARROW_RANGE_ROOM_6);
    VALUE(NIBHARROW_GATHER_ROOM_4);
    VALUE(NIBHARROW_GATHER_ROOM_6);
    VALUE(NIBHARROW_UNCOVERED_ROOM_4);
    VALUE(NIBHARROW_UNCOVERED_ROOM_6);
    VALUE(NIBHARROW_SHEET_ROOM);
    VALUE(NIBHARROW_REFUSAL_TEXT_ROOM);

    VALUE(NIBHARROW_TEXT_TOO_LONG);
    VALUE(NIBHARROW_MALFORMED);
    VALUE(NIBHARROW_NO_ROOM);
    VALUE(NIBHARROW_LENGTH_TOO_LARGE);
    VALUE(NIBHARROW_BITS_BEYOND_LENGTH);
    VALUE(NIBHARROW_NO_CLASS);
    VALUE(NIBHARROW_HOST_TOO_LARGE);
    VALUE(NIBHARROW_FIRST_ABOVE_LAST);
    VALUE(NIBHARROW_WRONG_FAMILY);
    VALUE(NIBHARROW_TOO_MANY);
    return 0;
}
