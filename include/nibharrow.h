/*
 * Nibharrow: IP addresses read, written, split and turned into blocks, lists of blocks gathered, and sheets respelled.
 *
 * Every function is proved to give, for each input, the one answer that its rules fix, to read and write no byte
 * outside the buffers it is lent, and to return. It keeps no state, allocates nothing and may be called from several
 * threads at once.
 *
 * What a caller owes, since C cannot say it in a type:
 *   - a pointer and the length behind it name that many bytes, readable where the pointer is to const, writable where not.
 *     A pointer may be NULL where its length is 0;
 *   - a buffer that a call writes to overlaps nothing else that the call is lent;
 *   - stack: up to about 87 KiB for a call on a sheet, 52 KiB for one on records, and 1 KiB for any other. Short sheets
 *     and lists may take nearly as much: docs/LINKING.md has the figures.
 * Nothing else is asked: any bytes and any numbers may be handed in.
 *
 * Text is bytes with a length. No zero byte ends it: pass strlen(text), and do not count the zero. A zero byte inside
 * it, or a blank around it, is a wrong byte. All text that is written is ASCII, and no zero byte is put behind it.
 *
 * Addresses are bytes in network order: 4 of IPv4, as struct in_addr has them, or 16 of IPv6, as struct in6_addr has
 * them. Any other number of bytes is no address, refusal 2.
 *
 * A record is a block as bytes: the 4 or 16 bytes of its address, then one byte with its prefix length. A list is
 * records of one family, end to end. A call on records is told their family, 4 or 6, and takes up to 512 of them.
 *
 * A sheet is up to 1,024 lines in up to 65,536 bytes. A line is the strict text of an address, a comma, a volume number
 * from 1 to 999,999, a comma, a pH in hundredths from 0 to 1400, and a newline, which the last line has too. The numbers
 * are in decimal digits with no leading zero, except "0" itself. Nothing else may be in a line: no blank, no carriage
 * return, and no line is empty.
 *
 * Answers. Each begins with `refusal`: 0 for a good answer, or one of the numbers below. Where it is not 0 every other
 * field is 0, and no byte of a lent buffer has changed. A good answer changes only the bytes it counts, at the start of
 * the buffer. Where several refusals hold, the first of 9, 1, 2, 4, 5, 6, 7, 8, 3 is given; bytes that are no address
 * have no family, so of bytes 9 is given only where they are addresses. A call on records gives the first of 9, 2 and 10, then the number
 * of the first bad record, 4 before 5, then 3. A call on a sheet gives the first of 1, 10, 2 and 3. Answers may have
 * padding: compare them field by field.
 */
#ifndef NIBHARROW_H
#define NIBHARROW_H

#include <stddef.h>
#include <stdint.h>

#ifdef __cplusplus
extern "C" {
#endif

enum nibharrow_refusal {
    NIBHARROW_TEXT_TOO_LONG = 1,      /* the text is longer than 64 bytes, or the sheet longer than 65,536 */
    NIBHARROW_MALFORMED = 2,          /* the text, or a line of a sheet, is of another form; the bytes are no address, or no records */
    NIBHARROW_NO_ROOM = 3,            /* the buffer is shorter than the answer */
    NIBHARROW_LENGTH_TOO_LARGE = 4,   /* a length or size is above 32 for IPv4, or above 128 for IPv6 */
    NIBHARROW_BITS_BEYOND_LENGTH = 5, /* a block's address has a one bit beyond its length */
    NIBHARROW_NO_CLASS = 6,           /* an address that begins with bits 111, or a network number of no class */
    NIBHARROW_HOST_TOO_LARGE = 7,     /* the host number is too large for the class of its network number */
    NIBHARROW_FIRST_ABOVE_LAST = 8,   /* the first address of a range is above the last */
    NIBHARROW_WRONG_FAMILY = 9,       /* not 4, 6 or 0, or 0 of records; a range's ends differ; IPv6 where IPv4 is meant */
    NIBHARROW_TOO_MANY = 10           /* more than 512 records, or more than 1,024 lines */
};

/* The most records that a call takes. */
#define NIBHARROW_MOST_RECORDS 512

/* The most lines and the most bytes of a sheet that a call takes. */
#define NIBHARROW_MOST_LINES 1024
#define NIBHARROW_LONGEST_SHEET 65536

/* Room that always suffices, in bytes. */
#define NIBHARROW_ADDRESS_ROOM 16           /* the bytes of an address */
#define NIBHARROW_TEXT_ROOM 39              /* the text of an address */
#define NIBHARROW_NETWORK_ROOM 4            /* the bytes of a network */
#define NIBHARROW_NETWORK_TEXT_ROOM 18      /* the text of a network */
#define NIBHARROW_BLOCK_TEXT_ROOM 43        /* the text of a block */
#define NIBHARROW_RANGE_ROOM_4 310          /* the records of a range of IPv4 addresses: 62 of 5 bytes */
#define NIBHARROW_RANGE_ROOM_6 4318         /* the records of a range of IPv6 addresses: 254 of 17 bytes */
#define NIBHARROW_GATHER_ROOM_4 2560        /* the records of a gathered list of IPv4: 512 of 5 bytes */
#define NIBHARROW_GATHER_ROOM_6 8704        /* the records of a gathered list of IPv6: 512 of 17 bytes */
#define NIBHARROW_UNCOVERED_ROOM_4 79365    /* what a list of IPv4 does not cover: at most 15,873 records of 5 bytes */
#define NIBHARROW_UNCOVERED_ROOM_6 1105425  /* what a list of IPv6 does not cover: at most 65,025 records of 17 bytes */
#define NIBHARROW_SHEET_ROOM 53248          /* a sheet that is written: 1,024 lines of at most 52 bytes */
#define NIBHARROW_REFUSAL_TEXT_ROOM 54      /* the words of a refusal */

/* `bytes` is how many bytes the call has written to the start of `out`; for an address 4 (IPv4) or 16 (IPv6). */
typedef struct nibharrow_written {
    uint32_t refusal;
    size_t bytes;
} nibharrow_written;

/* `size` in bits, and how many bytes of the network are at the start of `out`. */
typedef struct nibharrow_network_read {
    uint32_t refusal;
    uint32_t size;
    size_t bytes;
} nibharrow_network_read;

typedef struct nibharrow_network_host {
    uint32_t refusal;
    uint32_t network;
    uint32_t host;
} nibharrow_network_host;

/* The block's prefix length in bits, and how many bytes of its address are at the start of `out`: 4 or 16. */
typedef struct nibharrow_block_read {
    uint32_t refusal;
    uint32_t length;
    size_t bytes;
} nibharrow_block_read;

/* How many records are at the start of `out`, end to end, and how many bytes they fill. */
typedef struct nibharrow_blocks_written {
    uint32_t refusal;
    size_t blocks;
    size_t bytes;
} nibharrow_blocks_written;

/*
 * Reads strict text and writes the address to `out`. `family` is 4, 6, or 0 for either.
 * IPv4 is four decimal parts of 0 to 255 with no leading zero, so "010.0.0.12" is refused. IPv6 is RFC 4291 section
 * 2.2, with a dotted IPv4 tail if wished. Zones ("%eth0"), ports and brackets are refused.
 * Refusals: 9, 1, 2, 3.
 */
nibharrow_written nibharrow_read_address(const uint8_t *text, size_t text_length, uint32_t family, uint8_t *out, size_t out_length);

/*
 * Writes the normal text of an address to `out`: dotted decimal, or RFC 5952 section 4.
 * Refusals: 2, 3.
 */
nibharrow_written nibharrow_write_address(const uint8_t *address, size_t address_length, uint8_t *out, size_t out_length);

/*
 * Reads the loose IPv4 form, as inet_aton does, and writes the four bytes of the address to `out`: one to four parts in
 * hexadecimal ("0x7f"), octal ("0177") or decimal, of which the last fills the bytes that are left.
 * Refusals: 1, 2, 3.
 */
nibharrow_written nibharrow_read_loose(const uint8_t *text, size_t text_length, uint8_t *out, size_t out_length);

/*
 * Reads the network form of IPv4, as inet_net_pton does, and writes the bytes of the network to `out`: "0x" and one to
 * eight hex digits, or one to four strict decimal parts; then, if wished, a slash and a size in bits. With no size, it
 * is inferred from the first byte.
 * Refusals: 1, 2, 4, 3.
 */
nibharrow_network_read nibharrow_read_network(const uint8_t *text, size_t text_length, uint8_t *out, size_t out_length);

/*
 * Writes the network form of an IPv4 address and a size to `out`: the bytes that the size reaches into, in decimal with
 * the bits beyond the size cleared, a slash and the size.
 * Refusals: 9 for an IPv6 address, 2, 4, 3.
 */
nibharrow_written nibharrow_write_network(const uint8_t *address, size_t address_length, uint32_t size, uint8_t *out, size_t out_length);

/*
 * Splits an IPv4 address of class A, B or C into its network number, in which the class bits stay, and its host number.
 * Refusals: 9 for an IPv6 address, 2, 6.
 */
nibharrow_network_host nibharrow_split(const uint8_t *address, size_t address_length);

/*
 * Joins a network number of class A, B or C and a host number, and writes the four bytes of the address to `out`.
 * Refusals: 6, 7, 3.
 */
nibharrow_written nibharrow_join(uint32_t network, uint32_t host, uint8_t *out, size_t out_length);

/*
 * Reads the text of a block, strict text of an address, a slash and a prefix length, and writes the address to `out`.
 * Refusals: 1, 2, 4, 5, 3.
 */
nibharrow_block_read nibharrow_read_block(const uint8_t *text, size_t text_length, uint8_t *out, size_t out_length);

/*
 * Writes the text of a block to `out`: the normal text of its address, a slash and its prefix length.
 * Refusals: 2, 4, 5, 3.
 */
nibharrow_written nibharrow_write_block(const uint8_t *address, size_t address_length, uint32_t length, uint8_t *out, size_t out_length);

/*
 * Turns the range from `first` to `last`, both inclusive, into the fewest blocks that cover it and nothing else, and
 * writes them to `out` in rising order as records: the 4 or 16 bytes of the address, then one byte with the prefix
 * length.
 * Refusals: 9 where the families of two addresses differ, 2, 8, 3.
 */
nibharrow_blocks_written nibharrow_range_blocks(const uint8_t *first, size_t first_length, const uint8_t *last, size_t last_length, uint8_t *out, size_t out_length);

/*
 * Gathers a list, whose blocks may overlap and stand in any order: writes the fewest blocks that cover the same
 * addresses and no others to `out`, as records in rising order. There are never more of them than the list has, so a
 * buffer as long as the list suffices. An empty list gathers to nothing.
 * Refusals: 9 where `family` is not 4 or 6, 2 where the bytes are no whole number of records, 10, 4 or 5, 3.
 */
nibharrow_blocks_written nibharrow_gather(const uint8_t *records, size_t records_length, uint32_t family, uint8_t *out, size_t out_length);

/*
 * Writes what a list does not cover to `out`: the fewest blocks that cover every other address of the family and none of
 * the list's, as records in rising order. Of an empty list that is the one block of length 0, and of a list that covers
 * all it is nothing. Where it has at most 512 records, the same call on these gives what nibharrow_gather gives of the
 * list.
 * Refusals: 9 where `family` is not 4 or 6, 2 where the bytes are no whole number of records, 10, 4 or 5, 3.
 */
nibharrow_blocks_written nibharrow_uncovered(const uint8_t *records, size_t records_length, uint32_t family, uint8_t *out, size_t out_length);

/*
 * Respells a sheet: writes its lines to `out`, each with the normal text of its address and with its own volume and pH.
 * Where `sorted` is 0 the lines stay in their order. Where it is any other number, whole lines are sorted by address,
 * IPv4 before IPv6, and lines with equal addresses stay in their order. No line that is written is longer than 52 bytes.
 * An empty sheet stays empty.
 * Refusals: 1 for more than 65,536 bytes; 10 for more than 1,024 lines, a last one without its newline counted too; 2
 * where a line is malformed, such as that last one, or one whose address has more than 64 bytes; 3.
 */
nibharrow_written nibharrow_respell(const uint8_t *sheet, size_t sheet_length, uint32_t sorted, uint8_t *out, size_t out_length);

/*
 * Writes a refusal in words to `out`.
 * Refusals: 2 where the number is none of 1 to 10, 3.
 */
nibharrow_written nibharrow_refusal_text(uint32_t number, uint8_t *out, size_t out_length);

#ifdef __cplusplus
}
#endif

#endif
