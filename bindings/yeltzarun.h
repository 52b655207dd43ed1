/* Range lists, location lists and address tables of DWARF 3 to 5: the interface for C99, C11 and C++11.
 *
 * Every call ends, reads no byte outside the bytes that it is lent, and answers every input; nothing has to be checked
 * before it. The caller sees to it that a pointer and its length name readable bytes, or numbers where the pointer is to these
 * (the pointer may be NULL where the length is 0), that a pointer to a walk, marks, a place, a part, bounds or the places of
 * answers is not NULL, that what a call writes to can be written and shares no byte with anything else that it is lent, and that
 * no other thread writes what is lent. The library is for x86-64. How much stack a call takes, YZ_STACK and the three behind it
 * say. Its functions have no unwind tables: they throw nothing and call nothing of the caller, but a backtrace taken inside one,
 * as by a signal, stops there.
 *
 * An answer is a struct. It begins with `result`; with YZ_REFUSED, `refusal` is the refusal's number and `refusal_value` its
 * value, 0 where it has none. Fields that the result does not name are 0. What a call may be refused with stands at the call.
 *
 * Arguments stand in this order in all calls:
 *
 *   section, section_len        the bytes of the section that the list stands in, by the version of its unit:
 *                                   up to 4     .debug_ranges or .debug_loc            yz_section_of: YZ_SECTION_BEFORE_5
 *                                   from 5 on   .debug_rnglists or .debug_loclists                    YZ_SECTION_FROM_5
 *                               and in a .dwo file the section of that name with .dwo; .debug_ranges is in the main file
 *   debug_addr, debug_addr_len  the bytes of .debug_addr, in the byte order of the list; length 0 where there is none
 *   debug_addr_base             DW_AT_addr_base: where the addresses of the unit's table begin. A row past the table's end
 *                               reads what follows in the section, as gimli does
 *   debug_rnglists_base,        DW_AT_rnglists_base, DW_AT_loclists_base: where the offsets of the unit's table begin. A row
 *   debug_loclists_base         past the table's end is read likewise
 *   encoding                    how the unit is written, or of it big_endian or address_size alone; the latter stands last in
 *                               yz_wrapping_add_sized, as in gimli
 *   file_type                   whether the section is of a .dwo file: then location lists of every version have kinds
 *   offset, or at               where the list begins in the section, or what is read
 *   base_address                DW_AT_low_pc of the unit
 *   kinds, kinds_len            the bytes of a table of kind numbers, where the call's name ends in _by
 *   the rest                    what is asked for, then what is written to
 *
 * A loop over a walk stops at the end and on a refusal:
 *
 *     yz_walk walk;
 *     yz_range range;
 *     if (yz_range_open(section, section_len, encoding, offset, base_address, &walk).result != YZ_DONE) return;
 *     for (;;) {
 *         range = yz_range_next(section, section_len, debug_addr, debug_addr_len, debug_addr_base, encoding, &walk);
 *         if (range.result != YZ_DONE) break;
 *         printf("%" PRIx64 " to %" PRIx64 "\n", range.begin, range.end);
 *     }
 *     if (range.result == YZ_REFUSED) puts(yz_refusal_name(range.refusal));
 *
 * A loop that goes on after a refusal, for the entries behind a failed lookup in the address table, has to stop on refusal 6
 * all the same: with an address size that is not read each call on a walk answers 6, for ever, and never the end.
 */
#ifndef YELTZARUN_H
#define YELTZARUN_H

#include <stdbool.h>
#include <stddef.h>
#include <stdint.h>

#ifdef __cplusplus
extern "C" {
#endif

/* The version of this interface; it changes with every change of a struct, a number, a call or what a call answers. */
#define YZ_VERSION 10

/* The version of the library that is linked; the header is for it where this is YZ_VERSION. */
uint32_t yz_version(void);

/* What a call comes to. */
typedef enum yz_result {
    YZ_DONE = 0,      /* an item, or what was asked for */
    YZ_END = 1,       /* the end of a walk, a section's tables or a table's addresses */
    YZ_NOTHING = 2,   /* the entry comes to no range or location */
    YZ_NOT_THERE = 3, /* no entry holds the address */
    YZ_REFUSED = 4    /* refusal and refusal_value say why */
} yz_result;

/* The refusals by number; refusal_value where there is one. No call gives 14 and 18 yet; 15 to 17 are given by the calls
 * .._in_profile alone. */
typedef enum yz_refusal {
    YZ_NO_REFUSAL = 0,                /* with every result but YZ_REFUSED */
    YZ_UNEXPECTED_EOF = 1,            /* bytes are missing */
    YZ_BAD_UNSIGNED_LEB128 = 2,       /* the tenth byte is above 01 */
    YZ_UNKNOWN_RANGE_LISTS_ENTRY = 3, /* a range kind above 7, or a code without a kind; the kind or the code */
    YZ_UNKNOWN_LOC_LISTS_ENTRY = 4,   /* a location kind above 8; the kind */
    YZ_UNKNOWN_VERSION = 5,           /* a header's version is not 5; the version */
    YZ_UNSUPPORTED_ADDRESS_SIZE = 6,  /* not 1, 2, 3, 4 or 8; the size */
    YZ_UNSUPPORTED_SEGMENT_SIZE = 7,  /* not 0; the size */
    YZ_UNKNOWN_RESERVED_LENGTH = 8,   /* an initial length from 0xfffffff0 to 0xfffffffe; the length */
    YZ_UNSUPPORTED_OFFSET = 9,        /* a product or a sum is at or above 2^64 */
    YZ_TOO_MANY_RANGES = 10,          /* a yielded range past YZ_LIMIT is met */
    YZ_NO_SPACE = 11,                 /* an output is shorter than the result */
    YZ_BAD_SHEET = 12,                /* no lawful sheet */
    YZ_NO_SUCH_MARK = 13,             /* a mark's number is above 7, or the mark returned to is not set */
    YZ_BAD_SPAN = 14,                 /* a span's begin is above its end */
    YZ_PADDED_NUMBER = 15,            /* in the profile: a LEB128 number has a shorter form */
    YZ_TOMBSTONE = 16,                /* in the profile: a base address or a begin is at or above the tombstone bound */
    YZ_BACKWARD_RANGE = 17,           /* in the profile: a range's begin is above its end */
    YZ_ADDRESS_TOO_LARGE = 18,        /* a range is too large for the address size of an older list */
    YZ_BAD_KIND_TABLE = 19,           /* no table of kind numbers that can be loaded */
    YZ_TOO_MANY_ADDRESSES = 20,       /* more than 64 addresses in one call of .._lookups or .._lookups_by */
    YZ_DESCENDING_ADDRESSES = 21      /* an address in such a call is above the one after it */
} yz_refusal;

/* The name of a refusal; "" for YZ_NO_REFUSAL and for a number that is none. */
static inline const char *yz_refusal_name(yz_refusal refusal) {
    switch (refusal) {
    case YZ_NO_REFUSAL: break;
    case YZ_UNEXPECTED_EOF: return "UnexpectedEof";
    case YZ_BAD_UNSIGNED_LEB128: return "BadUnsignedLeb128";
    case YZ_UNKNOWN_RANGE_LISTS_ENTRY: return "UnknownRangeListsEntry";
    case YZ_UNKNOWN_LOC_LISTS_ENTRY: return "UnknownLocListsEntry";
    case YZ_UNKNOWN_VERSION: return "UnknownVersion";
    case YZ_UNSUPPORTED_ADDRESS_SIZE: return "UnsupportedAddressSize";
    case YZ_UNSUPPORTED_SEGMENT_SIZE: return "UnsupportedSegmentSize";
    case YZ_UNKNOWN_RESERVED_LENGTH: return "UnknownReservedLength";
    case YZ_UNSUPPORTED_OFFSET: return "UnsupportedOffset";
    case YZ_TOO_MANY_RANGES: return "TooManyRanges";
    case YZ_NO_SPACE: return "NoSpace";
    case YZ_BAD_SHEET: return "BadSheet";
    case YZ_NO_SUCH_MARK: return "NoSuchMark";
    case YZ_BAD_SPAN: return "BadSpan";
    case YZ_PADDED_NUMBER: return "PaddedNumber";
    case YZ_TOMBSTONE: return "Tombstone";
    case YZ_BACKWARD_RANGE: return "BackwardRange";
    case YZ_ADDRESS_TOO_LARGE: return "AddressTooLarge";
    case YZ_BAD_KIND_TABLE: return "BadKindTable";
    case YZ_TOO_MANY_ADDRESSES: return "TooManyAddresses";
    case YZ_DESCENDING_ADDRESSES: return "DescendingAddresses";
    }
    return "";
}

/* How a unit is written. */
typedef struct yz_encoding {
    uint16_t version;     /* up to 4 bare pairs, from 5 on entries with kinds */
    uint8_t address_size; /* 1, 2, 3, 4 or 8; every other size is refused with 6 */
    bool dwarf64;         /* the 64-bit format */
    uint32_t big_endian;  /* the byte order of its sections: 0 the lowest byte first, any other number the highest */
} yz_encoding;

/* Whether a section is of the main file or of a split one. */
typedef enum yz_file_type {
    YZ_FILE_MAIN = 0,
    YZ_FILE_DWO = 1 /* a .dwo file */
} yz_file_type;

/* Which sections the lists of a unit stand in. */
typedef enum yz_section {
    YZ_SECTION_BEFORE_5 = 0, /* .debug_ranges, .debug_loc */
    YZ_SECTION_FROM_5 = 1    /* .debug_rnglists, .debug_loclists */
} yz_section;

/* The kinds of entries in range lists: DWARF 5's DW_RLE_.., and 0 for a bare pair. */
typedef enum yz_range_kind {
    YZ_RLE_ADDRESS_OR_OFFSET_PAIR = 0,
    YZ_RLE_BASE_ADDRESSX = 1,
    YZ_RLE_STARTX_ENDX = 2,
    YZ_RLE_STARTX_LENGTH = 3,
    YZ_RLE_OFFSET_PAIR = 4,
    YZ_RLE_BASE_ADDRESS = 5,
    YZ_RLE_START_END = 6,
    YZ_RLE_START_LENGTH = 7
} yz_range_kind;

/* The kinds of entries in location lists: DWARF 5's DW_LLE_.., and 0 for a bare pair. */
typedef enum yz_location_kind {
    YZ_LLE_ADDRESS_OR_OFFSET_PAIR = 0,
    YZ_LLE_BASE_ADDRESSX = 1,
    YZ_LLE_STARTX_ENDX = 2,
    YZ_LLE_STARTX_LENGTH = 3,
    YZ_LLE_OFFSET_PAIR = 4,
    YZ_LLE_DEFAULT_LOCATION = 5,
    YZ_LLE_BASE_ADDRESS = 6,
    YZ_LLE_START_END = 7,
    YZ_LLE_START_LENGTH = 8
} yz_location_kind;

/* The library takes an enum to have four bytes and a length eight; what is compiled otherwise stops here. */
typedef char yz_check_sizes[sizeof(yz_result) == 4 && sizeof(size_t) == 8 ? 1 : -1];

/* How many ranges a coverage holds at most. */
#define YZ_LIMIT 3000
/* Outputs of these lengths are never refused with 11. */
#define YZ_SHEET_MAX (4 + 16 * YZ_LIMIT)
#define YZ_CANONICAL_MAX (19 * YZ_LIMIT + 1)

/* Bytes of stack that are more than a call takes, beside what memset and memcpy of the C library do: one that reads a list for its
 * coverage, runs or canonical list, and yz_coverage_from_canonical; the same where the list yields at most 32 ranges; one that
 * looks up several addresses; any other. */
#define YZ_STACK (48 * YZ_LIMIT + 11000)
#define YZ_STACK_SHORT 6000
#define YZ_STACK_LOOKUPS 1600
#define YZ_STACK_OTHERS 400

/* The begins or the ends of a coverage's ranges. */
typedef struct yz_bounds { uint64_t at[YZ_LIMIT]; } yz_bounds;

/* A part of a section. */
typedef struct yz_part {
    uint64_t offset;
    uint64_t length;
} yz_part;

/* A list that is walked. One made by hand is answered, too. */
typedef struct yz_walk {
    uint64_t at;           /* the place of the next entry; from the section's end on there is none */
    uint64_t base_address; /* what the next offset pair is added to */
    uint64_t entries;      /* how many entries were read since it was opened, the end mark among them; 2^64 - 1 stays */
    uint64_t split;        /* not 0: a location list of a .dwo file, as told at its opening; range lists don't read it */
} yz_walk;

/* How many bytes a table of kind numbers has, and the byte of a code that has no kind. */
#define YZ_KIND_CODES 256
#define YZ_NO_KIND 255

/* How many addresses are looked up at most in one reading of a list. */
#define YZ_MOST_ADDRESSES 64

/* How many marks a walk has; they are numbered from 0 on. */
#define YZ_MARKS 8

/* A mark of a walk. */
typedef struct yz_mark {
    uint64_t is_set; /* not 0: the mark is set; setting writes 1 */
    yz_walk walk;    /* what it stores, where it is set */
} yz_mark;

/* The marks of one walk, each at its number. All bytes 0: none is set. */
typedef struct yz_marks { yz_mark at[YZ_MARKS]; } yz_marks;

/* An entry of a range list as it is written. */
typedef struct yz_range_entry {
    uint64_t kind;   /* a yz_range_kind */
    uint64_t first;  /* begin, base address or index */
    uint64_t second; /* end, length or index; 0 where the kind has one number */
} yz_range_entry;

/* An entry of a location list as it is written. */
typedef struct yz_location_entry {
    uint64_t kind;      /* a yz_location_kind */
    uint64_t first;     /* begin, base address or index; 0 where the kind has none */
    uint64_t second;    /* end, length or index; 0 where the kind has one number or none */
    yz_part expression; /* of the section; 0 and 0 where the kind has none */
} yz_location_entry;

/* ---- Answers ---- */

/* Done or refused. */
typedef struct yz_done {
    yz_result result;
    yz_refusal refusal;
    uint64_t refusal_value;
} yz_done;

/* Done: a number. */
typedef struct yz_number {
    yz_result result;
    yz_refusal refusal;
    uint64_t refusal_value;
    uint64_t number;
} yz_number;

/* Done: how many ranges a coverage has, how many bytes were written, or how many entries were read. */
typedef struct yz_count {
    yz_result result;
    yz_refusal refusal;
    uint64_t refusal_value;
    uint64_t count;
} yz_count;

/* Done: a place. */
typedef struct yz_place {
    yz_result result;
    yz_refusal refusal;
    uint64_t refusal_value;
    uint64_t next; /* the place after what was passed over */
} yz_place;

/* Done: a number that was read. */
typedef struct yz_read {
    yz_result result;
    yz_refusal refusal;
    uint64_t refusal_value;
    uint64_t next; /* the place after what was read */
    uint64_t number;
} yz_read;

/* Done: a LEB128 number that was read. */
typedef struct yz_leb128 {
    yz_result result;
    yz_refusal refusal;
    uint64_t refusal_value;
    uint64_t next; /* the place after the number */
    uint64_t number;
    uint64_t length; /* how many bytes the number takes, 1 to 10 */
    uint64_t padded; /* 1 where a shorter form of the number exists: it has more than one byte, and the last is 00; else 0 */
} yz_leb128;

/* Done: a part of the section. */
typedef struct yz_split_part {
    yz_result result;
    yz_refusal refusal;
    uint64_t refusal_value;
    uint64_t next; /* the place after the part */
    yz_part part;
} yz_split_part;

/* Done: an initial length. */
typedef struct yz_unit_length {
    yz_result result;
    yz_refusal refusal;
    uint64_t refusal_value;
    uint64_t next; /* the place after the length */
    uint64_t length;
    uint64_t dwarf64; /* 1 for the 64-bit format, else 0 */
} yz_unit_length;

/* Done: the header of a table in .debug_addr. */
typedef struct yz_table_header {
    yz_result result;
    yz_refusal refusal;
    uint64_t refusal_value;
    yz_encoding encoding;
    uint64_t offset; /* where the header begins */
    uint64_t length; /* the unit's, as the header gives it */
    yz_part entries; /* the table's addresses; their offset is the unit's debug_addr_base */
} yz_table_header;

/* Done: the header of a unit in .debug_rnglists or .debug_loclists. */
typedef struct yz_lists_header_answer {
    yz_result result;
    yz_refusal refusal;
    uint64_t refusal_value;
    yz_encoding encoding;
    uint64_t offset_entry_count; /* how many offsets follow the header */
    uint64_t header_size;
    yz_part rest; /* of the unit, from the header's end on */
} yz_lists_header_answer;

/* Done: a range, from begin up to, and without, end. */
typedef struct yz_range {
    yz_result result;
    yz_refusal refusal;
    uint64_t refusal_value;
    uint64_t begin;
    uint64_t end;
} yz_range;

/* Done: a range, and the expression that holds in it. */
typedef struct yz_location {
    yz_result result;
    yz_refusal refusal;
    uint64_t refusal_value;
    uint64_t begin;
    uint64_t end;
    yz_part expression; /* of the section */
} yz_location;

/* The answers of addresses that are looked up in one reading of a list, each at its address's number, counted from 0. */
typedef struct yz_found { yz_location at[YZ_MOST_ADDRESSES]; } yz_found;

/* Done: an entry of a range list as it is written. */
typedef struct yz_raw_range {
    yz_result result;
    yz_refusal refusal;
    uint64_t refusal_value;
    yz_range_entry entry;
    uint64_t padded; /* 1 where some LEB128 number of the entry is padded, else 0; "Walks", below, says which these are */
} yz_raw_range;

/* Done: an entry of a location list as it is written. */
typedef struct yz_raw_location {
    yz_result result;
    yz_refusal refusal;
    uint64_t refusal_value;
    yz_location_entry entry;
    uint64_t padded; /* as in yz_raw_range */
} yz_raw_location;

/* ---- Reads at a place. Done, or refused: 1 where bytes are missing. ---- */

/* An unsigned LEB128 number of at most ten bytes, its length, and whether it is padded. Refused: 1, 2. */
yz_leb128 yz_uleb128(const uint8_t *section, size_t section_len, size_t at);

/* A number of one byte. Refused: 1. */
yz_read yz_read_u8(const uint8_t *section, size_t section_len, size_t at);

/* A number of two bytes. Refused: 1. */
yz_read yz_read_u16(const uint8_t *section, size_t section_len, bool big_endian, size_t at);

/* A number of four bytes. Refused: 1. */
yz_read yz_read_u32(const uint8_t *section, size_t section_len, bool big_endian, size_t at);

/* A number of eight bytes. Refused: 1. */
yz_read yz_read_u64(const uint8_t *section, size_t section_len, bool big_endian, size_t at);

/* An address of the encoding's size. Refused: 6, then 1. */
yz_read yz_read_address(const uint8_t *section, size_t section_len, yz_encoding encoding, size_t at);

/* An address size of one byte. Refused: 1, then 6. */
yz_read yz_read_address_size(const uint8_t *section, size_t section_len, size_t at);

/* An offset: four bytes, or eight in the 64-bit format. Refused: 1. */
yz_read yz_read_offset(const uint8_t *section, size_t section_len, yz_encoding encoding, size_t at);

/* An initial length, and the format that it tells. Refused: 1, 8. */
yz_unit_length yz_initial_length(const uint8_t *section, size_t section_len, bool big_endian, size_t at);

/* The place after len more bytes. Refused: 1. */
yz_place yz_skip(const uint8_t *section, size_t section_len, size_t at, uint64_t len);

/* The part of len bytes from the place on. Refused: 1. */
yz_split_part yz_split(const uint8_t *section, size_t section_len, size_t at, uint64_t len);

/* Where a section ends that is cut len bytes after the place. Refused: 1. */
yz_number yz_truncate(const uint8_t *section, size_t section_len, size_t at, uint64_t len);

/* ---- Addresses: the answer itself, for every size ---- */

/* The sum modulo 2^64, of which the low 8 * address_size bits are kept. */
uint64_t yz_wrapping_add_sized(uint64_t address, uint64_t length, uint8_t address_size);

/* The tombstone bound, 2^(8 * address_size) - 2 for sizes 1 to 8: from there on an address stands for removed code. */
uint64_t yz_min_tombstone(uint8_t address_size);

/* The largest address, 2^(8 * address_size) - 1 for sizes up to 8. */
uint64_t yz_ones_sized(uint8_t address_size);

/* ---- Address tables, headers and offset tables ---- */

/* The address of an index in the table at a base. Refused: 1, 9 (index * address_size), 6. */
yz_number yz_get_address(const uint8_t *debug_addr, size_t debug_addr_len, uint64_t debug_addr_base,
                         yz_encoding encoding, uint64_t index);

/* The next header of .debug_addr. `at` is its place, 0 at first; the call moves it behind the header's table, at the end
 * not at all, and on a refusal to the section's end. Done, end, or refused: 1, 5, 6, 7, 8. */
yz_table_header yz_table_next(const uint8_t *debug_addr, size_t debug_addr_len, bool big_endian, uint64_t *at);

/* The next address of a table. `entries` is what is left of its addresses; the call takes the address off its front, and on
 * a refusal leaves nothing of it. Done, end, or refused: 6, then 1. A part that does not lie in the section has no addresses. */
yz_number yz_table_entry_next(const uint8_t *debug_addr, size_t debug_addr_len, yz_encoding encoding,
                              yz_part *entries);

/* The header of .debug_rnglists or .debug_loclists at a place. Refused: 1, 5, 6, 7, 8. */
yz_lists_header_answer yz_lists_header(const uint8_t *section, size_t section_len, bool big_endian, size_t at);

/* The range list's offset that an index (DW_FORM_rnglistx) has in the table at a base (DW_AT_rnglists_base). A row past the
 * table's end reads what follows in the section. Refused: 1, 9. */
yz_number yz_range_get_offset(const uint8_t *debug_rnglists, size_t debug_rnglists_len, uint64_t debug_rnglists_base,
                              yz_encoding encoding, uint64_t index);

/* The base of .debug_rnglists where no attribute gives one: the answer itself. */
uint64_t yz_range_default_base(yz_encoding encoding, yz_file_type file_type);

/* The location list's offset that an index (DW_FORM_loclistx) has in the table at a base (DW_AT_loclists_base). A row past
 * the table's end reads what follows in the section. Refused: 1, 9. */
yz_number yz_location_get_offset(const uint8_t *debug_loclists, size_t debug_loclists_len, uint64_t debug_loclists_base,
                                 yz_encoding encoding, uint64_t index);

/* The base of .debug_loclists where no attribute gives one: the answer itself. */
uint64_t yz_location_default_base(yz_encoding encoding, yz_file_type file_type);

/* ---- Walks. After a refusal of .._next, .._next_in_profile or .._next_raw that is not the address table's the walk is at its
 * end; after a failed lookup in the address table it goes on with the entry that follows. A refusal of .._open or .._convert_raw leaves
 * the walk as it was.
 *
 * Opening sets entries to 0. Each entry that .._next, .._next_in_profile or .._next_raw reads adds one, also one that comes to no
 * range or location, one whose lookup fails, one refused with 15, 16 or 17, and the end mark: where .._next is done, entries is
 * the number of the entry that the item is of, counted from 1. An entry refused otherwise is not read and adds nothing; nor does
 * the section's end without an end mark, a call after the end, or .._convert_raw.
 *
 * In what .._next_raw answers, padded is 1 where at least one LEB128 number of the entry is padded (yz_leb128), else 0. LEB128
 * are indexes, the numbers of an offset pair, and lengths; but that of YZ_LLE_STARTX_LENGTH and that of an expression only from
 * version 5 on, before which they have four and two bytes. These, addresses and bare pairs are never padded, whatever their
 * bytes. At the end and at a refusal padded is 0, also where a padded number was read.
 *
 * .._next_in_profile is for the lists of a compiler that is held to write no padded numbers, no tombstones and no backward
 * ranges. It answers as .._next does, refusals too, and leaves the walk as that does, until it meets an entry with one of these:
 *
 *   15   some LEB128 number of the entry is padded, that of an expression's length too. The entry was read whole: bytes that are
 *        missing, or a kind that is none, are refused before; and no address was looked up
 *   16   its lookups have succeeded, and begin is at or above the tombstone bound (yz_min_tombstone); for an offset pair, bare
 *        ones included, also the base address, as it is and before the sums, which wrap
 *   17   then, begin is above end
 *
 * Each empties the walk: its place is the section's length, the base address stays, and the entry counts. An empty range that is
 * not 16 is passed over. A base selection is never 16 or 17, whatever its address, nor is a default location. A walk is the same
 * for .._next, .._next_raw and .._next_in_profile: they may be mixed, and marks serve all. ---- */

/* Which section a unit's lists stand in: the answer itself. */
yz_section yz_section_of(yz_encoding encoding);

/* A walk at the begin of a range list, none of it read. Refused: 6, then 1. */
yz_done yz_range_open(const uint8_t *section, size_t section_len, yz_encoding encoding, uint64_t offset,
                      uint64_t base_address, yz_walk *walk);

/* The next range. Done, end, or refused: 6 before all else; 1, 2, 3; 1 and 9 by the address table. */
yz_range yz_range_next(const uint8_t *section, size_t section_len, const uint8_t *debug_addr, size_t debug_addr_len,
                       uint64_t debug_addr_base, yz_encoding encoding, yz_walk *walk);

/* The next range in the profile. Done, end, or refused: as yz_range_next; an entry that is read 15, before the address table is
 * asked, and after it 16, then 17. */
yz_range yz_range_next_in_profile(const uint8_t *section, size_t section_len, const uint8_t *debug_addr,
                                  size_t debug_addr_len, uint64_t debug_addr_base, yz_encoding encoding, yz_walk *walk);

/* The next entry as it is written. Done, end, or refused: 6 before all else; 1, 2, 3. */
yz_raw_range yz_range_next_raw(const uint8_t *section, size_t section_len, yz_encoding encoding, yz_walk *walk);

/* What an entry comes to that yz_range_next_raw gave. Done: a range. Nothing: none, but perhaps another base address in the
 * walk, whose place and entries stay. Refused: 6, then 3 for a kind above 7; 1 and 9 by the address table. */
yz_range yz_range_convert_raw(const uint8_t *debug_addr, size_t debug_addr_len, uint64_t debug_addr_base,
                              yz_encoding encoding, yz_range_entry entry, yz_walk *walk);

/* A walk at the begin of a location list, none of it read; it keeps whether the list is split. Refused: 6, then 1. */
yz_done yz_location_open(const uint8_t *section, size_t section_len, yz_encoding encoding, yz_file_type file_type,
                         uint64_t offset, uint64_t base_address, yz_walk *walk);

/* The next location. Done, end, or refused: 6 before all else; 1, 2, 4; 1 and 9 by the address table. */
yz_location yz_location_next(const uint8_t *section, size_t section_len, const uint8_t *debug_addr,
                             size_t debug_addr_len, uint64_t debug_addr_base, yz_encoding encoding, yz_walk *walk);

/* The next location in the profile, of a split list where the walk was opened for one. Done, end, or refused: as
 * yz_location_next; an entry that is read 15, before the address table is asked, and after it 16, then 17. */
yz_location yz_location_next_in_profile(const uint8_t *section, size_t section_len, const uint8_t *debug_addr,
                                        size_t debug_addr_len, uint64_t debug_addr_base, yz_encoding encoding,
                                        yz_walk *walk);

/* The next entry as it is written. Done, end, or refused: 6 before all else; 1, 2, 4. */
yz_raw_location yz_location_next_raw(const uint8_t *section, size_t section_len, yz_encoding encoding, yz_walk *walk);

/* What an entry comes to that yz_location_next_raw gave. Done: a location; the expression is handed on as it came in, whether
 * or not it lies in a section. Nothing: none, but perhaps another base address in the walk, whose place and entries stay.
 * Refused: 6, then 4 for a kind above 8; 1 and 9 by the address table. */
yz_location yz_location_convert_raw(const uint8_t *debug_addr, size_t debug_addr_len, uint64_t debug_addr_base,
                                    yz_encoding encoding, yz_location_entry entry, yz_walk *walk);

/* For an expression that was not read from the section: the part itself where it lies in there, else 0 and 0. */
yz_part yz_expression(const uint8_t *section, size_t section_len, yz_part expression);

/* ---- Marks, to leave a list and return. They belong to one walk, of a range list or of a location list; the caller makes them
 * all 0 when the list is opened, so that none is set. Walks of an address table (yz_table_next, yz_table_entry_next) have none.
 * A return is to a walk over the same sections: to the same reading calls with the same arguments, no return among them, it
 * answers as it did after the setting.
 *
 * Neither call reads a section. Any walk is stored and brought back, also one past its section's end, an emptied one and one
 * made by hand; with an address size that is not read, 6 waits for the next call that reads. Done, or refused: 13 and nothing
 * else. A refused call writes nothing. ---- */

/* Stores the walk whole, entries and split included, in a mark, in place of what was there. The walk and the other marks stay.
 * Refused: 13 for a number above 7. */
yz_done yz_mark_set(uint64_t number, const yz_walk *walk, yz_marks *marks);

/* Brings back the walk that a mark stores, exactly; every mark stays. Refused: 13 for a number above 7, and for a mark that is
 * not set. */
yz_done yz_mark_return(uint64_t number, const yz_marks *marks, yz_walk *walk);

/* ---- Lookups: the entry of a list that holds an address. Done, not there, or refused as opening and .._next are, by a failed
 * lookup in the address table, too, where that is met before the entry found. What follows that entry is not read. ---- */

/* The range of the first entry that holds an address. */
yz_range yz_range_lookup(const uint8_t *section, size_t section_len, const uint8_t *debug_addr, size_t debug_addr_len,
                         uint64_t debug_addr_base, yz_encoding encoding, uint64_t offset, uint64_t base_address,
                         uint64_t address);

/* The location of the first bounded entry that holds an address; where the list has ended without one, at its end mark or the
 * section's end, that of the first default location. Bounded is every kind but YZ_LLE_DEFAULT_LOCATION, with the bounds 0 and
 * 2^64 - 1, too. A default location has the range 0 to 2^64 - 1, as in a walk, and its own expression; 2^64 - 1 it does not hold.
 * The list is read on behind it, and what is refused there is the answer where no bounded entry before that holds the address. */
yz_location yz_location_lookup(const uint8_t *section, size_t section_len, const uint8_t *debug_addr,
                               size_t debug_addr_len, uint64_t debug_addr_base, yz_encoding encoding,
                               yz_file_type file_type, uint64_t offset, uint64_t base_address, uint64_t address);

/* ---- Lookups of several addresses in one reading of a list: at most YZ_MOST_ADDRESSES, none above the one after it; some may be
 * equal. The place in found that has an address's number gets its answer, the one of a lookup of this address alone: done, not
 * there, or refused. Places past the last address are left as they were.
 *
 * Done: count is how many entries were read, as a walk counts them: as many as the longest of the single lookups reads. What
 * follows these is not read. A refusal of opening is the answer of each address, and count is 0. Without addresses nothing is
 * opened: the call is done, whatever else it is given, and count is 0.
 *
 * Refused: 20 for more addresses, then 21 for one that is above the one after it, before the list is opened; nothing else refuses
 * the call. A refused call leaves found as it was. ---- */

/* The ranges of the first entries that hold addresses: the answers of yz_range_lookup, with 0 and 0 for an expression. Done, or
 * refused: 20, then 21. */
yz_count yz_range_lookups(const uint8_t *section, size_t section_len, const uint8_t *debug_addr, size_t debug_addr_len,
                          uint64_t debug_addr_base, yz_encoding encoding, uint64_t offset, uint64_t base_address,
                          const uint64_t *addresses, size_t addresses_len, yz_found *found);

/* The locations of addresses: the answers of yz_location_lookup. Done, or refused: 20, then 21. */
yz_count yz_location_lookups(const uint8_t *section, size_t section_len, const uint8_t *debug_addr,
                             size_t debug_addr_len, uint64_t debug_addr_base, yz_encoding encoding,
                             yz_file_type file_type, uint64_t offset, uint64_t base_address, const uint64_t *addresses,
                             size_t addresses_len, yz_found *found);

/* ---- Coverage: the addresses of a list as their longest runs, ascending, in begins and ends. A refused call leaves begins and
 * ends as they were. Bounds are written whole, 0 past the count, which clears 16 * YZ_LIMIT bytes whatever the list; the calls
 * .._runs write the ranges and nothing else, and a list of few ranges pays for no more. ---- */

/* The coverage of a range list. Refused as opening and yz_range_next are, or 10, whichever is met first. */
yz_count yz_range_coverage(const uint8_t *section, size_t section_len, const uint8_t *debug_addr,
                           size_t debug_addr_len, uint64_t debug_addr_base, yz_encoding encoding, uint64_t offset,
                           uint64_t base_address, yz_bounds *begins, yz_bounds *ends);

/* The same at the front of arrays of any lengths, counted in places; YZ_LIMIT places are always enough. Places past the count
 * are left as they were. Refused as yz_range_coverage is, then 11 where begins or ends has fewer places than there are ranges. */
yz_count yz_range_runs(const uint8_t *section, size_t section_len, const uint8_t *debug_addr, size_t debug_addr_len,
                       uint64_t debug_addr_base, yz_encoding encoding, uint64_t offset, uint64_t base_address,
                       uint64_t *begins, size_t begins_len, uint64_t *ends, size_t ends_len);

/* The coverage of a location list. Refused as opening and yz_location_next are, or 10, whichever is met first. */
yz_count yz_location_coverage(const uint8_t *section, size_t section_len, const uint8_t *debug_addr,
                              size_t debug_addr_len, uint64_t debug_addr_base, yz_encoding encoding,
                              yz_file_type file_type, uint64_t offset, uint64_t base_address, yz_bounds *begins,
                              yz_bounds *ends);

/* The same at the front of arrays of any lengths, as yz_range_runs does it. Refused as yz_location_coverage is, then 11. */
yz_count yz_location_runs(const uint8_t *section, size_t section_len, const uint8_t *debug_addr,
                          size_t debug_addr_len, uint64_t debug_addr_base, yz_encoding encoding,
                          yz_file_type file_type, uint64_t offset, uint64_t base_address, uint64_t *begins,
                          size_t begins_len, uint64_t *ends, size_t ends_len);

/* The coverage of a canonical list, read as a section of its own. Any little-endian DWARF 5 range list of address size 8 is
 * read so, canonical or not, also one cut between entries: yz_is_canonical is the test. Refused: 1, 2, 3, 9, 10. */
yz_count yz_coverage_from_canonical(const uint8_t *bytes, size_t bytes_len, yz_bounds *begins, yz_bounds *ends);

/* The coverage of a sheet. Refused: 12. */
yz_count yz_coverage_from_sheet(const uint8_t *sheet, size_t sheet_len, yz_bounds *begins, yz_bounds *ends);

/* ---- Sheets and canonical lists: the bytes stand at the begin of output; those after them are not touched. A refused call
 * leaves the output as it was. ---- */

/* The sheet of the first n ranges; what stands past them is not read. Refused: 12, then 11. */
yz_count yz_sheet(uint64_t n, const yz_bounds *begins, const yz_bounds *ends, uint8_t *output, size_t output_len);

/* The canonical list of the first n ranges; what stands past them is not read. Refused: 12, then 11. */
yz_count yz_canonical(uint64_t n, const yz_bounds *begins, const yz_bounds *ends, uint8_t *output, size_t output_len);

/* The canonical list of a range list. Refused as yz_range_coverage is, then 11. */
yz_count yz_range_canonical(const uint8_t *section, size_t section_len, const uint8_t *debug_addr,
                            size_t debug_addr_len, uint64_t debug_addr_base, yz_encoding encoding, uint64_t offset,
                            uint64_t base_address, uint8_t *output, size_t output_len);

/* The canonical list of a location list. Refused as yz_location_coverage is, then 11. */
yz_count yz_location_canonical(const uint8_t *section, size_t section_len, const uint8_t *debug_addr,
                               size_t debug_addr_len, uint64_t debug_addr_base, yz_encoding encoding,
                               yz_file_type file_type, uint64_t offset, uint64_t base_address, uint8_t *output,
                               size_t output_len);

/* ---- Whether a list is canonical: the answer itself ---- */

/* Whether the bytes, no more and no fewer, are the canonical list of some coverage. */
bool yz_is_canonical(const uint8_t *bytes, size_t bytes_len);

/* ---- Kind numbers: range lists of a compiler that has codes of its own for the kinds of entries. A table has YZ_KIND_CODES
 * bytes; the byte at a code, counted from 0, is the number of the code's kind, 0 to 7 as DWARF 5 has them with 0 for the end of
 * the list, or YZ_NO_KIND. With the bytes 0 to 7 and 248 times 255 the calls below answer as those without _by do.
 *
 * yz_kinds_load says whether bytes are a table that is whole and in itself right; it keeps nothing, and each call is lent the
 * table. A call asks for no loading: it answers with any bytes, of any length, NULL and 0 among them. In these 8 to 254 are read
 * as 255, and so is a code past their end, while bytes past the first 256 can't be asked; codes may share a kind, and where none
 * has 0 a list ends with its section.
 *
 * An entry is read as one whose first byte were the number of its kind; its other bytes are no codes. A code without a kind is
 * refused with 3 and that code, the list's own byte, as an entry that is not read. All else is as for the call without _by:
 * yz_range_open opens the walk; refusal 6 comes before all else; base addresses, counts, padded and marks are the same; and a
 * walk may be carried on by either call, or by another table. Bare pairs, up to version 4, have no codes: any table gives the
 * same answers. Location lists have no tables.
 *
 * The table belongs to the list that it is lent for, and to nothing made of the list: coverages and canonical lists say nothing
 * of it, and a canonical list is walked by the calls without _by. ---- */

/* Whether bytes are a table. Done, or refused: 19 where they are not 256, where one is 8 to 254, where a kind from 0 to 7 has two
 * codes, and where 0 has none. Any of the kinds 1 to 7 may have none, and any number of codes no kind. */
yz_done yz_kinds_load(const uint8_t *table, size_t table_len);

/* The next range by a table. Done, end, or refused as yz_range_next is. */
yz_range yz_range_next_by(const uint8_t *section, size_t section_len, const uint8_t *debug_addr, size_t debug_addr_len,
                          uint64_t debug_addr_base, yz_encoding encoding, const uint8_t *kinds, size_t kinds_len,
                          yz_walk *walk);

/* The next range in the profile by a table. Done, end, or refused as yz_range_next_in_profile is. */
yz_range yz_range_next_in_profile_by(const uint8_t *section, size_t section_len, const uint8_t *debug_addr,
                                     size_t debug_addr_len, uint64_t debug_addr_base, yz_encoding encoding,
                                     const uint8_t *kinds, size_t kinds_len, yz_walk *walk);

/* The next entry by a table, with the number of its kind, not its code: yz_range_convert_raw takes it as it is. Done, end, or
 * refused as yz_range_next_raw is. */
yz_raw_range yz_range_next_raw_by(const uint8_t *section, size_t section_len, yz_encoding encoding, const uint8_t *kinds,
                                  size_t kinds_len, yz_walk *walk);

/* The range by a table that holds an address. Done, not there, or refused as yz_range_lookup is. */
yz_range yz_range_lookup_by(const uint8_t *section, size_t section_len, const uint8_t *debug_addr, size_t debug_addr_len,
                            uint64_t debug_addr_base, yz_encoding encoding, uint64_t offset, uint64_t base_address,
                            const uint8_t *kinds, size_t kinds_len, uint64_t address);

/* The ranges by a table that hold addresses: the answers of yz_range_lookup_by. Done or refused, and written, as by
 * yz_range_lookups. */
yz_count yz_range_lookups_by(const uint8_t *section, size_t section_len, const uint8_t *debug_addr, size_t debug_addr_len,
                             uint64_t debug_addr_base, yz_encoding encoding, uint64_t offset, uint64_t base_address,
                             const uint8_t *kinds, size_t kinds_len, const uint64_t *addresses, size_t addresses_len,
                             yz_found *found);

/* The coverage by a table. Refused, and written, as by yz_range_coverage. */
yz_count yz_range_coverage_by(const uint8_t *section, size_t section_len, const uint8_t *debug_addr,
                              size_t debug_addr_len, uint64_t debug_addr_base, yz_encoding encoding, uint64_t offset,
                              uint64_t base_address, const uint8_t *kinds, size_t kinds_len, yz_bounds *begins,
                              yz_bounds *ends);

/* The same at the front of arrays of any lengths, as yz_range_runs does it. Refused as yz_range_coverage_by is, then 11. */
yz_count yz_range_runs_by(const uint8_t *section, size_t section_len, const uint8_t *debug_addr, size_t debug_addr_len,
                          uint64_t debug_addr_base, yz_encoding encoding, uint64_t offset, uint64_t base_address,
                          const uint8_t *kinds, size_t kinds_len, uint64_t *begins, size_t begins_len, uint64_t *ends,
                          size_t ends_len);

/* The canonical list by a table. Refused as yz_range_coverage_by is, then 11. */
yz_count yz_range_canonical_by(const uint8_t *section, size_t section_len, const uint8_t *debug_addr,
                               size_t debug_addr_len, uint64_t debug_addr_base, yz_encoding encoding, uint64_t offset,
                               uint64_t base_address, const uint8_t *kinds, size_t kinds_len, uint8_t *output,
                               size_t output_len);

#ifdef __cplusplus
}
#endif

#endif
