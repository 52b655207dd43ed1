/* Each export through the header, on good and on bad input. The expected values are DWARF's and docs/SCOPE.md's, worked out by
 * hand. A test has its export's name; --list prints the names, --refusals the refusals' numbers and names. It is compiled as
 * C99, C11 and C++11. */
#include "yeltzarun.h"

#include <stdio.h>
#include <string.h>

static const char *test;
static unsigned passed, failed;

static void check(bool holds, int line, const char *what) {
    if (holds) {
        passed++;
        return;
    }
    failed++;
    printf("test.c:%d: %s: not so: %s\n", line, test, what);
}

#define CHECK(condition) check(condition, __LINE__, #condition)

/* What memory holds before a call. */
#define OLD 0xee
#define OLD_WORD UINT64_C(0xeeeeeeeeeeeeeeee)
#define MAX UINT64_MAX
#define TWO_TO_61 (UINT64_C(1) << 61)
#define THIRD (UINT64_MAX / 3)

/* An answer's fields in their order, 0 after the last. */
#define FIELDS 11
typedef struct fields { uint64_t at[FIELDS]; } fields;

static fields fields_of(yz_result result, yz_refusal refusal, uint64_t value) {
    fields all;
    memset(&all, 0, sizeof all);
    all.at[0] = (uint64_t)result;
    all.at[1] = (uint64_t)refusal;
    all.at[2] = value;
    return all;
}

/* `of_TYPE` gives the fields of an answer of that type: those of all answers, then its own. */
#define FIELDS_OF(type, ...)                                                                                         \
    static fields of_##type(yz_##type a) {                                                                           \
        const uint64_t own[] = {__VA_ARGS__};                                                                        \
        fields all = fields_of(a.result, a.refusal, a.refusal_value);                                                \
        memcpy(all.at + 3, own, sizeof own);                                                                         \
        return all;                                                                                                  \
    }
#define ENCODING(e) e.version, e.address_size, e.dwarf64, e.big_endian
#define PART(p) p.offset, p.length

static fields of_done(yz_done a) { return fields_of(a.result, a.refusal, a.refusal_value); }
FIELDS_OF(number, a.number)
FIELDS_OF(count, a.count)
FIELDS_OF(place, a.next)
FIELDS_OF(read, a.next, a.number)
FIELDS_OF(leb128, a.next, a.number, a.length, a.padded)
FIELDS_OF(split_part, a.next, PART(a.part))
FIELDS_OF(unit_length, a.next, a.length, a.dwarf64)
FIELDS_OF(table_header, ENCODING(a.encoding), a.offset, a.length, PART(a.entries))
FIELDS_OF(lists_header_answer, ENCODING(a.encoding), a.offset_entry_count, a.header_size, PART(a.rest))
FIELDS_OF(range, a.begin, a.end)
FIELDS_OF(location, a.begin, a.end, PART(a.expression))
FIELDS_OF(raw_range, a.entry.kind, a.entry.first, a.entry.second, a.padded)
FIELDS_OF(raw_location, a.entry.kind, a.entry.first, a.entry.second, PART(a.entry.expression), a.padded)

static void same(fields got, const uint64_t *expected, int line, const char *what) {
    bool all = memcmp(got.at, expected, sizeof got.at) == 0;
    unsigned i;
    for (i = 0; !all && i < FIELDS; i++)
        if (got.at[i] != expected[i])
            printf("test.c:%d: %s: field %u is %llx, expected %llx\n", line, test, i, (unsigned long long)got.at[i],
                   (unsigned long long)expected[i]);
    check(all, line, what);
}

/* Bytes that become old; the pointer keeps the compiler from seeing to what end. */
static void make_old(void *bytes, size_t n) { memset(bytes, OLD, n); }
static void (*volatile old)(void *, size_t) = make_old;

static bool all_old(const void *bytes, size_t n) {
    const uint8_t *p = (const uint8_t *)bytes;
    return n == 0 || (*p == OLD && memcmp(p, p + 1, n - 1) == 0);
}

/* A call that answers by a type with these fields; all that follow must be 0. Most compilers have the call write its answer
 * where the old one was. */
#define IS(type, call, ...)                                                                                          \
    do {                                                                                                             \
        const uint64_t expected[FIELDS] = {__VA_ARGS__};                                                             \
        do {                                                                                                         \
            yz_##type stale;                                                                                         \
            old(&stale, sizeof stale);                                                                               \
        } while (0);                                                                                                 \
        do {                                                                                                         \
            const yz_##type answer = call;                                                                           \
            same(of_##type(answer), expected, __LINE__, #call);                                                      \
        } while (0);                                                                                                 \
    } while (0)

/* The first fields of an answer. */
#define DONE YZ_DONE, 0, 0
#define END YZ_END, 0, 0
#define COMES_TO_NOTHING YZ_NOTHING, 0, 0
#define NOT_THERE YZ_NOT_THERE, 0, 0
#define REFUSED(refusal, value) YZ_REFUSED, refusal, value
#define CUT_SHORT REFUSED(YZ_UNEXPECTED_EOF, 0)
#define BAD_SIZE(size) REFUSED(YZ_UNSUPPORTED_ADDRESS_SIZE, size)
#define TOO_FAR REFUSED(YZ_UNSUPPORTED_OFFSET, 0)
#define TOO_MANY REFUSED(YZ_TOO_MANY_RANGES, 0)
#define NO_ROOM REFUSED(YZ_NO_SPACE, 0)
#define NO_CODE(code) REFUSED(YZ_UNKNOWN_RANGE_LISTS_ENTRY, code)

/* A byte string and its length, without the last 0. */
#define S(bytes) (const uint8_t *)(bytes), sizeof(bytes) - 1
#define NO_BYTES NULL, 0

/* The scope's address table, its addresses from 8 on, in both orders. */
#define TABLE S("\x0c\0\0\0\x05\0\x04\0\x10\0\0\0\x20\0\0\0")
#define BIG_TABLE S("\0\0\0\x0c\0\x05\x04\0\0\0\0\x10\0\0\0\x20")
/* The same with addresses of three bytes. */
#define TABLE_3 S("\x0a\0\0\0\x05\0\x03\0\x10\0\0\x20\0\0")
#define BIG_TABLE_3 S("\0\0\0\x0a\0\x05\x03\0\0\0\x10\0\0\x20")
/* A header of lists with two offsets, 8 and 10, and two lists of one byte. */
#define LISTS S("\x12\0\0\0\x05\0\x04\0\x02\0\0\0\x08\0\0\0\x0a\0\0\0\0\0")
#define ONE_TO_EIGHT S("\x01\x02\x03\x04\x05\x06\x07\x08")
/* Nine bytes of a LEB128 number; the tenth decides. */
#define NINE "\x80\x80\x80\x80\x80\x80\x80\x80\x80"
/* 2^61 as LEB128: times 8 it is 2^64. */
#define INDEX_2_61 "\x80\x80\x80\x80\x80\x80\x80\x80\x20"
/* A third of 2^64 - 1 as LEB128, and one more: times 3 they are 2^64 - 1 and 2^64 + 2. */
#define INDEX_THIRD "\xd5\xaa\xd5\xaa\xd5\xaa\xd5\xaa\x55"
#define INDEX_PAST_THIRD "\xd6\xaa\xd5\xaa\xd5\xaa\xd5\xaa\x55"
/* The scope's two ranges that touch, and their canonical list and sheet. */
#define TOUCHING S("\x07\x20\0\0\0\x10\x07\x10\0\0\0\x10\0")
#define TOUCHING_CANONICAL "\x07\x10\0\0\0\0\0\0\0\x20\0"
#define TOUCHING_SHEET "\x01\0\x08\0\x10\0\0\0\0\0\0\0\x30\0\0\0\0\0\0"
/* The canonical list of 030201 to 060504, whose bytes all differ. */
#define THREE_CANONICAL "\x07\x01\x02\x03\0\0\0\0\0\x83\x86\x0c\0"

static const bool LITTLE = false, BIG = true;
static const yz_file_type MAIN = YZ_FILE_MAIN, DWO = YZ_FILE_DWO;

static yz_encoding encoded(uint16_t version, uint8_t address_size, bool dwarf64, uint32_t big_endian) {
    yz_encoding encoding;
    encoding.version = version;
    encoding.address_size = address_size;
    encoding.dwarf64 = dwarf64;
    encoding.big_endian = big_endian;
    return encoding;
}

/* Of the 32-bit format, in either order, and of the 64-bit format. */
static yz_encoding little(uint16_t version, uint8_t address_size) { return encoded(version, address_size, false, false); }
static yz_encoding big(uint16_t version, uint8_t address_size) { return encoded(version, address_size, false, true); }
static yz_encoding wide(bool big_endian) { return encoded(5, 8, true, big_endian); }

static yz_part part(uint64_t offset, uint64_t length) {
    yz_part made;
    made.offset = offset;
    made.length = length;
    return made;
}

/* ---- What the library was compiled for ---- */

/* The type's size, and the offset of a field in it. */
#define SIZE(type, size) CHECK(sizeof(yz_##type) == (size))
#define FIELD(type, field, at) CHECK(offsetof(yz_##type, field) == (at))
/* Every answer begins alike. */
#define ANSWER(type, size)                                                                                           \
    do {                                                                                                             \
        SIZE(type, size);                                                                                            \
        FIELD(type, result, 0);                                                                                      \
        FIELD(type, refusal, 4);                                                                                     \
        FIELD(type, refusal_value, 8);                                                                               \
    } while (0)

static void layout(void) {
    SIZE(result, 4);
    SIZE(refusal, 4);
    SIZE(file_type, 4);
    SIZE(section, 4);
    SIZE(encoding, 8);
    FIELD(encoding, version, 0);
    FIELD(encoding, address_size, 2);
    FIELD(encoding, dwarf64, 3);
    FIELD(encoding, big_endian, 4);
    SIZE(part, 16);
    FIELD(part, offset, 0);
    FIELD(part, length, 8);
    SIZE(walk, 32);
    FIELD(walk, at, 0);
    FIELD(walk, base_address, 8);
    FIELD(walk, entries, 16);
    FIELD(walk, split, 24);
    SIZE(mark, 40);
    FIELD(mark, is_set, 0);
    FIELD(mark, walk, 8);
    SIZE(marks, 8 * 40);
    SIZE(bounds, 8 * 3000);
    SIZE(found, 64 * 48);
    SIZE(range_entry, 24);
    FIELD(range_entry, kind, 0);
    FIELD(range_entry, first, 8);
    FIELD(range_entry, second, 16);
    SIZE(location_entry, 40);
    FIELD(location_entry, kind, 0);
    FIELD(location_entry, first, 8);
    FIELD(location_entry, second, 16);
    FIELD(location_entry, expression, 24);
    ANSWER(done, 16);
    ANSWER(number, 24);
    FIELD(number, number, 16);
    ANSWER(count, 24);
    FIELD(count, count, 16);
    ANSWER(place, 24);
    FIELD(place, next, 16);
    ANSWER(read, 32);
    FIELD(read, next, 16);
    FIELD(read, number, 24);
    ANSWER(leb128, 48);
    FIELD(leb128, next, 16);
    FIELD(leb128, number, 24);
    FIELD(leb128, length, 32);
    FIELD(leb128, padded, 40);
    ANSWER(split_part, 40);
    FIELD(split_part, next, 16);
    FIELD(split_part, part, 24);
    ANSWER(unit_length, 40);
    FIELD(unit_length, next, 16);
    FIELD(unit_length, length, 24);
    FIELD(unit_length, dwarf64, 32);
    ANSWER(table_header, 56);
    FIELD(table_header, encoding, 16);
    FIELD(table_header, offset, 24);
    FIELD(table_header, length, 32);
    FIELD(table_header, entries, 40);
    ANSWER(lists_header_answer, 56);
    FIELD(lists_header_answer, encoding, 16);
    FIELD(lists_header_answer, offset_entry_count, 24);
    FIELD(lists_header_answer, header_size, 32);
    FIELD(lists_header_answer, rest, 40);
    ANSWER(range, 32);
    FIELD(range, begin, 16);
    FIELD(range, end, 24);
    ANSWER(location, 48);
    FIELD(location, begin, 16);
    FIELD(location, end, 24);
    FIELD(location, expression, 32);
    ANSWER(raw_range, 48);
    FIELD(raw_range, entry, 16);
    FIELD(raw_range, padded, 40);
    ANSWER(raw_location, 64);
    FIELD(raw_location, entry, 16);
    FIELD(raw_location, padded, 56);
}

static void test_version(void) {
    CHECK(yz_version() == YZ_VERSION);
    CHECK(YZ_LIMIT == 3000 && YZ_SHEET_MAX == 48004 && YZ_CANONICAL_MAX == 57001);
    CHECK(YZ_MARKS == 8 && YZ_MOST_ADDRESSES == 64);
    layout();
    CHECK(strcmp(yz_refusal_name(YZ_NO_REFUSAL), "") == 0);
    CHECK(strcmp(yz_refusal_name((yz_refusal)22), "") == 0);
}

/* ---- Reads ---- */

#define READ(call, ...) IS(read, call, __VA_ARGS__)

/* Bytes that are put together; an expression may have 0x8000 of them. */
static uint8_t made[0x8100];
static size_t made_len;

static void put(uint8_t byte) { made[made_len++] = byte; }

/* A LEB128 number: its shortest form, made longer by so many bytes. */
static void put_uleb128(uint64_t number, unsigned padding) {
    for (; number > 0x7f; number >>= 7)
        put((uint8_t)(number | 0x80));
    put((uint8_t)(padding > 0 ? number | 0x80 : number));
    for (; padding > 0; padding--)
        put(padding > 1 ? 0x80 : 0);
}

#define LEB128(call, ...) IS(leb128, call, __VA_ARGS__)

/* Of each length from 1 to 10 the smallest number and the largest, as they are and padded to every length that is read. The byte
 * before them and the one behind are no part of them. */
static void lengths_of_numbers(void) {
    unsigned bytes, padding, i;
    for (bytes = 1; bytes <= 10; bytes++) {
        const uint64_t smallest = bytes > 1 ? UINT64_C(1) << 7 * (bytes - 1) : 0;
        const uint64_t largest = bytes < 10 ? (UINT64_C(1) << 7 * bytes) - 1 : MAX;
        for (i = 0; i < 2; i++) {
            const uint64_t number = i == 0 ? smallest : largest;
            for (padding = 0; padding <= 10 - bytes; padding++) {
                const unsigned length = bytes + padding;
                made_len = 0;
                put(0x80);
                put_uleb128(number, padding);
                put(0);
                LEB128(yz_uleb128(made, made_len, 1), DONE, 1 + length, number, length, padding > 0);
                LEB128(yz_uleb128(made, 1 + length, 1), DONE, 1 + length, number, length, padding > 0);
                LEB128(yz_uleb128(made, length, 1), CUT_SHORT);
            }
            /* Eleven bytes. */
            made_len = 0;
            put_uleb128(number, padding);
            LEB128(yz_uleb128(made, made_len, 0), REFUSED(YZ_BAD_UNSIGNED_LEB128, 0));
        }
    }
}

static void test_uleb128(void) {
    LEB128(yz_uleb128(S("\xe5\x8e\x26\xff"), 0), DONE, 3, 624485, 3, 0);
    LEB128(yz_uleb128(S("\xe5\x8e\x26\xff"), 2), DONE, 3, 0x26, 1, 0);
    LEB128(yz_uleb128(S("\0"), 0), DONE, 1, 0, 1, 0);
    LEB128(yz_uleb128(S("\x7f"), 0), DONE, 1, 0x7f, 1, 0);
    LEB128(yz_uleb128(S("\x80\x01"), 0), DONE, 2, 0x80, 2, 0);
    LEB128(yz_uleb128(S("\x80\0"), 0), DONE, 2, 0, 2, 1);
    LEB128(yz_uleb128(S("\x82\0"), 0), DONE, 2, 2, 2, 1);
    LEB128(yz_uleb128(S("\xff\x7f"), 0), DONE, 2, 0x3fff, 2, 0);
    LEB128(yz_uleb128(S("\x81\x80\0"), 0), DONE, 3, 1, 3, 1);
    LEB128(yz_uleb128(S("\x80\x81\0"), 0), DONE, 3, 0x80, 3, 1);
    LEB128(yz_uleb128(S(NINE "\x01"), 0), DONE, 10, UINT64_C(1) << 63, 10, 0);
    LEB128(yz_uleb128(S(NINE "\0"), 0), DONE, 10, 0, 10, 1);
    LEB128(yz_uleb128(S("\xff\xff\xff\xff\xff\xff\xff\xff\xff\x01"), 0), DONE, 10, MAX, 10, 0);
    LEB128(yz_uleb128(S("\xff\xff\xff\xff\xff\xff\xff\xff\xff\0"), 0), DONE, 10, MAX >> 1, 10, 1);
    LEB128(yz_uleb128(S("\xff\xff\xff\xff\xff\xff\xff\xff\x7f"), 0), DONE, 9, MAX >> 1, 9, 0);
    LEB128(yz_uleb128(S(NINE "\x02"), 0), REFUSED(YZ_BAD_UNSIGNED_LEB128, 0));
    LEB128(yz_uleb128(S(NINE), 0), CUT_SHORT);
    LEB128(yz_uleb128(S("\x80"), 0), CUT_SHORT);
    LEB128(yz_uleb128(S("\x80\0"), 1), DONE, 2, 0, 1, 0);
    LEB128(yz_uleb128(S("\x80\0"), 2), CUT_SHORT);
    LEB128(yz_uleb128(S("\x80\0"), MAX), CUT_SHORT);
    LEB128(yz_uleb128(S("\x01"), MAX), CUT_SHORT);
    LEB128(yz_uleb128(NO_BYTES, 0), CUT_SHORT);
    LEB128(yz_uleb128(NO_BYTES, MAX), CUT_SHORT);
    lengths_of_numbers();
}

static void test_read_u8(void) {
    READ(yz_read_u8(S("\xab\xcd"), 1), DONE, 2, 0xcd);
    READ(yz_read_u8(S("\xab\xcd"), 2), CUT_SHORT);
    READ(yz_read_u8(S("\xab\xcd"), MAX), CUT_SHORT);
    READ(yz_read_u8(NO_BYTES, 0), CUT_SHORT);
}

static void test_read_u16(void) {
    READ(yz_read_u16(S("\x01\x02\x03"), LITTLE, 1), DONE, 3, 0x0302);
    READ(yz_read_u16(S("\x01\x02\x03"), BIG, 0), DONE, 2, 0x0102);
    READ(yz_read_u16(S("\x01\x02\x03"), BIG, 2), CUT_SHORT);
    READ(yz_read_u16(S("\x01\x02\x03"), LITTLE, MAX), CUT_SHORT);
    READ(yz_read_u16(NO_BYTES, BIG, 0), CUT_SHORT);
}

static void test_read_u32(void) {
    READ(yz_read_u32(ONE_TO_EIGHT, LITTLE, 1), DONE, 5, 0x05040302);
    READ(yz_read_u32(ONE_TO_EIGHT, BIG, 4), DONE, 8, 0x05060708);
    READ(yz_read_u32(ONE_TO_EIGHT, BIG, 5), CUT_SHORT);
    READ(yz_read_u32(ONE_TO_EIGHT, BIG, MAX - 3), CUT_SHORT);
    READ(yz_read_u32(NO_BYTES, LITTLE, 0), CUT_SHORT);
}

static void test_read_u64(void) {
    READ(yz_read_u64(ONE_TO_EIGHT, LITTLE, 0), DONE, 8, UINT64_C(0x0807060504030201));
    READ(yz_read_u64(ONE_TO_EIGHT, BIG, 0), DONE, 8, UINT64_C(0x0102030405060708));
    READ(yz_read_u64(ONE_TO_EIGHT, BIG, 1), CUT_SHORT);
    READ(yz_read_u64(ONE_TO_EIGHT, LITTLE, MAX - 7), CUT_SHORT);
    READ(yz_read_u64(NO_BYTES, LITTLE, 0), CUT_SHORT);
}

static void test_read_address(void) {
    READ(yz_read_address(ONE_TO_EIGHT, little(5, 1), 7), DONE, 8, 8);
    READ(yz_read_address(ONE_TO_EIGHT, little(5, 2), 0), DONE, 2, 0x0201);
    READ(yz_read_address(ONE_TO_EIGHT, little(5, 3), 0), DONE, 3, 0x030201);
    READ(yz_read_address(ONE_TO_EIGHT, big(4, 3), 5), DONE, 8, 0x060708);
    READ(yz_read_address(ONE_TO_EIGHT, big(4, 4), 4), DONE, 8, 0x05060708);
    READ(yz_read_address(ONE_TO_EIGHT, wide(BIG), 0), DONE, 8, UINT64_C(0x0102030405060708));
    READ(yz_read_address(ONE_TO_EIGHT, encoded(0, 4, true, UINT32_MAX), 4), DONE, 8, 0x05060708);
    READ(yz_read_address(ONE_TO_EIGHT, encoded(0, 4, false, 0x100), 4), DONE, 8, 0x05060708);
    READ(yz_read_address(ONE_TO_EIGHT, big(5, 4), 5), CUT_SHORT);
    READ(yz_read_address(ONE_TO_EIGHT, big(5, 1), MAX), CUT_SHORT);
    READ(yz_read_address(ONE_TO_EIGHT, little(5, 3), 6), CUT_SHORT);
    READ(yz_read_address(ONE_TO_EIGHT, big(5, 3), MAX - 1), CUT_SHORT);
    READ(yz_read_address(NO_BYTES, big(5, 3), 0), CUT_SHORT);
    READ(yz_read_address(ONE_TO_EIGHT, little(5, 5), 0), BAD_SIZE(5));
    READ(yz_read_address(NO_BYTES, little(5, 255), MAX), BAD_SIZE(255));
    READ(yz_read_address(NO_BYTES, little(5, 0), 0), BAD_SIZE(0));
}

static void test_read_address_size(void) {
    READ(yz_read_address_size(S("\x01\x02\x04\x08"), 0), DONE, 1, 1);
    READ(yz_read_address_size(S("\x01\x02\x04\x08"), 3), DONE, 4, 8);
    READ(yz_read_address_size(ONE_TO_EIGHT, 2), DONE, 3, 3);
    READ(yz_read_address_size(ONE_TO_EIGHT, 4), BAD_SIZE(5));
    READ(yz_read_address_size(ONE_TO_EIGHT, 5), BAD_SIZE(6));
    READ(yz_read_address_size(ONE_TO_EIGHT, 6), BAD_SIZE(7));
    READ(yz_read_address_size(S("\0"), 0), BAD_SIZE(0));
    READ(yz_read_address_size(S("\x08"), 1), CUT_SHORT);
    READ(yz_read_address_size(S("\x08"), MAX), CUT_SHORT);
    READ(yz_read_address_size(NO_BYTES, 0), CUT_SHORT);
}

static void test_read_offset(void) {
    READ(yz_read_offset(ONE_TO_EIGHT, little(5, 8), 4), DONE, 8, 0x08070605);
    READ(yz_read_offset(ONE_TO_EIGHT, encoded(0, 5, true, BIG), 0), DONE, 8, UINT64_C(0x0102030405060708));
    READ(yz_read_offset(ONE_TO_EIGHT, little(5, 8), 5), CUT_SHORT);
    READ(yz_read_offset(ONE_TO_EIGHT, wide(LITTLE), 1), CUT_SHORT);
    READ(yz_read_offset(ONE_TO_EIGHT, little(5, 8), MAX), CUT_SHORT);
    READ(yz_read_offset(NO_BYTES, wide(LITTLE), 0), CUT_SHORT);
}

#define LENGTH(call, ...) IS(unit_length, call, __VA_ARGS__)

static void test_initial_length(void) {
    LENGTH(yz_initial_length(TABLE, LITTLE, 0), DONE, 4, 12, 0);
    LENGTH(yz_initial_length(BIG_TABLE, BIG, 0), DONE, 4, 12, 0);
    LENGTH(yz_initial_length(S("\0\xef\xff\xff\xff"), LITTLE, 1), DONE, 5, 0xffffffef, 0);
    LENGTH(yz_initial_length(S("\xff\xff\xff\xff\0\0\0\0\0\0\0\x09"), BIG, 0), DONE, 12, 9, 1);
    LENGTH(yz_initial_length(S("\xf0\xff\xff\xff"), LITTLE, 0), REFUSED(YZ_UNKNOWN_RESERVED_LENGTH, 0xfffffff0));
    LENGTH(yz_initial_length(S("\xff\xff\xff\xfe"), BIG, 0), REFUSED(YZ_UNKNOWN_RESERVED_LENGTH, 0xfffffffe));
    LENGTH(yz_initial_length(S("\xff\xff\xff\xff\0\0\0\0\0\0\0"), BIG, 0), CUT_SHORT);
    LENGTH(yz_initial_length(TABLE, LITTLE, MAX), CUT_SHORT);
    LENGTH(yz_initial_length(NO_BYTES, LITTLE, 0), CUT_SHORT);
}

static void test_skip(void) {
    IS(place, yz_skip(S("abc"), 1, 2), DONE, 3);
    IS(place, yz_skip(NO_BYTES, 0, 0), DONE, 0);
    IS(place, yz_skip(S("abc"), 1, 3), CUT_SHORT);
    IS(place, yz_skip(S("abc"), 1, MAX), CUT_SHORT);
    IS(place, yz_skip(S("abc"), MAX, 1), CUT_SHORT);
    IS(place, yz_skip(S("abc"), MAX, MAX), CUT_SHORT);
    IS(place, yz_skip(S("abc"), 4, 0), CUT_SHORT);
}

static void test_split(void) {
    IS(split_part, yz_split(S("abcd"), 1, 2), DONE, 3, 1, 2);
    IS(split_part, yz_split(S("abcd"), 4, 0), DONE, 4, 4, 0);
    IS(split_part, yz_split(S("abcd"), 1, 4), CUT_SHORT);
    IS(split_part, yz_split(S("abcd"), 2, MAX - 1), CUT_SHORT);
    IS(split_part, yz_split(NO_BYTES, 0, 1), CUT_SHORT);
}

static void test_truncate(void) {
    IS(number, yz_truncate(S("abcd"), 1, 2), DONE, 3);
    IS(number, yz_truncate(S("abcd"), 1, 3), DONE, 4);
    IS(number, yz_truncate(S("abcd"), 1, 4), CUT_SHORT);
    IS(number, yz_truncate(S("abcd"), 1, MAX), CUT_SHORT);
    IS(number, yz_truncate(S("abcd"), MAX, 1), CUT_SHORT);
    IS(number, yz_truncate(NO_BYTES, 0, 0), DONE, 0);
}

/* ---- Addresses ---- */

static void test_wrapping_add_sized(void) {
    CHECK(yz_wrapping_add_sized(0xffffff00, 0x110, 4) == 0x10);
    CHECK(yz_wrapping_add_sized(0xf0, 0x20, 1) == 0x10);
    CHECK(yz_wrapping_add_sized(1, 2, 2) == 3);
    CHECK(yz_wrapping_add_sized(0xffff00, 0x110, 3) == 0x10);
    CHECK(yz_wrapping_add_sized(0xfffffffe, 1, 3) == 0xffffff);
    CHECK(yz_wrapping_add_sized(MAX, 1, 8) == 0);
    CHECK(yz_wrapping_add_sized(MAX, MAX, 8) == MAX - 1);
    CHECK(yz_wrapping_add_sized(MAX, 1, 0) == 0);
    CHECK(yz_wrapping_add_sized(5, 6, 255) == 11);
}

static void test_min_tombstone(void) {
    CHECK(yz_min_tombstone(1) == 0xfe);
    CHECK(yz_min_tombstone(2) == 0xfffe);
    CHECK(yz_min_tombstone(3) == 0xfffffe);
    CHECK(yz_min_tombstone(4) == 0xfffffffe);
    CHECK(yz_min_tombstone(8) == MAX - 1);
    CHECK(yz_min_tombstone(0) == 0);
    CHECK(yz_min_tombstone(255) == MAX - 1);
}

static void test_ones_sized(void) {
    CHECK(yz_ones_sized(0) == 0);
    CHECK(yz_ones_sized(1) == 0xff);
    CHECK(yz_ones_sized(2) == 0xffff);
    CHECK(yz_ones_sized(3) == 0xffffff);
    CHECK(yz_ones_sized(4) == 0xffffffff);
    CHECK(yz_ones_sized(8) == MAX);
    CHECK(yz_ones_sized(255) == MAX);
}

/* ---- Tables and headers ---- */

#define ADDRESS(table, base, encoding, index, ...)                                                                   \
    IS(number, yz_get_address(table, base, encoding, index), __VA_ARGS__)

static void test_get_address(void) {
    ADDRESS(TABLE, 8, little(5, 4), 0, DONE, 0x10);
    ADDRESS(TABLE, 8, little(5, 4), 1, DONE, 0x20);
    ADDRESS(BIG_TABLE, 8, big(4, 4), 1, DONE, 0x20);
    /* The table at 0 has a header and two addresses; its row 2 is the first address. */
    ADDRESS(TABLE, 0, little(5, 4), 2, DONE, 0x10);
    ADDRESS(TABLE, 8, little(5, 4), 2, CUT_SHORT);
    ADDRESS(TABLE, MAX, little(5, 4), 0, CUT_SHORT);
    ADDRESS(TABLE, 17, little(5, 8), TWO_TO_61, CUT_SHORT);
    ADDRESS(TABLE, 0, little(5, 8), TWO_TO_61, TOO_FAR);
    ADDRESS(TABLE, 0, little(5, 255), MAX, TOO_FAR);
    ADDRESS(TABLE, 0, little(5, 1), MAX, CUT_SHORT);
    ADDRESS(TABLE_3, 8, little(5, 3), 0, DONE, 0x10);
    ADDRESS(TABLE_3, 8, little(5, 3), 1, DONE, 0x20);
    ADDRESS(BIG_TABLE_3, 8, big(4, 3), 1, DONE, 0x20);
    ADDRESS(ONE_TO_EIGHT, 2, little(5, 3), 1, DONE, 0x080706);
    ADDRESS(ONE_TO_EIGHT, 2, big(5, 3), 1, DONE, 0x060708);
    ADDRESS(TABLE_3, 8, little(5, 3), 2, CUT_SHORT);
    ADDRESS(ONE_TO_EIGHT, 0, big(5, 3), 2, CUT_SHORT);
    ADDRESS(NO_BYTES, 0, little(5, 3), THIRD, CUT_SHORT);
    ADDRESS(NO_BYTES, 0, little(5, 3), THIRD + 1, TOO_FAR);
    ADDRESS(TABLE_3, 0, little(5, 3), THIRD + 1, TOO_FAR);
    ADDRESS(TABLE, 8, little(5, 5), 0, BAD_SIZE(5));
    ADDRESS(NO_BYTES, 0, little(5, 0), MAX, BAD_SIZE(0));
    ADDRESS(NO_BYTES, 0, little(5, 4), 0, CUT_SHORT);
}

/* The next header from a place, and the place then. */
#define HEADER(section, order, from, to, ...)                                                                        \
    do {                                                                                                             \
        uint64_t at = from;                                                                                          \
        IS(table_header, yz_table_next(section, order, &at), __VA_ARGS__);                                           \
        check(at == (to), __LINE__, "at == " #to);                                                                   \
    } while (0)

static void test_table_next(void) {
    HEADER(TABLE, LITTLE, 0, 16, DONE, 5, 4, 0, 0, 0, 12, 8, 8);
    HEADER(TABLE, LITTLE, 16, 16, END);
    HEADER(BIG_TABLE, BIG, 0, 16, DONE, 5, 4, 0, 1, 0, 12, 8, 8);
    HEADER(S("\0\xff\xff\xff\xff\0\0\0\0\0\0\0\x0c\0\x05\x08\0\x01\x02\x03\x04\x05\x06\x07\x08"), BIG, 1, 25, DONE, 5, 8,
           1, 1, 1, 12, 17, 8);
    HEADER(S("\0\x05\0\0\0\x05\0\x01\0\xaa"), LITTLE, 1, 10, DONE, 5, 1, 0, 0, 1, 5, 9, 1);
    HEADER(S("\0\0\0\x06\0\0\0\x05\0\x02\0\xaa\xbb"), LITTLE, 3, 13, DONE, 5, 2, 0, 0, 3, 6, 11, 2);
    HEADER(TABLE_3, LITTLE, 0, 14, DONE, 5, 3, 0, 0, 0, 10, 8, 6);
    HEADER(TABLE_3, LITTLE, 14, 14, END);
    HEADER(BIG_TABLE_3, BIG, 0, 14, DONE, 5, 3, 0, 1, 0, 10, 8, 6);
    HEADER(S("\xff\xff\xff\xff\x0a\0\0\0\0\0\0\0\x05\0\x03\0\x10\0\0\x20\0\0"), LITTLE, 0, 22, DONE, 5, 3, 1, 0,
           0, 10, 16, 6);
    HEADER(S("\0\x09\0\0\0\x05\0\x03\0\x10\0\0\x20\0"), LITTLE, 1, 14, DONE, 5, 3, 0, 0, 1, 9, 9, 5);
#define OF_VERSION_4 S("\x08\0\0\0\x04\0\x04\0\0\0\0\0")
    HEADER(OF_VERSION_4, LITTLE, 0, 12, REFUSED(YZ_UNKNOWN_VERSION, 4));
    HEADER(OF_VERSION_4, LITTLE, 12, 12, END);
#undef OF_VERSION_4
    HEADER(S("\x04\0\0\0\x05\0\x05\0"), LITTLE, 0, 8, BAD_SIZE(5));
    HEADER(S("\x04\0\0\0\x05\0\x04\x01"), LITTLE, 0, 8, REFUSED(YZ_UNSUPPORTED_SEGMENT_SIZE, 1));
    HEADER(S("\xf0\xff\xff\xff"), LITTLE, 0, 4, REFUSED(YZ_UNKNOWN_RESERVED_LENGTH, 0xfffffff0));
    HEADER(S("\x05\0\0\0\x05\0\x04\0"), LITTLE, 0, 8, CUT_SHORT);
    HEADER(TABLE, LITTLE, MAX, MAX, END);
    HEADER(NO_BYTES, LITTLE, 0, 0, END);
}

/* The next address of what is left, and what is left then. */
#define ENTRY(table, encoding, offset_in, length_in, offset_out, length_out, ...)                                    \
    do {                                                                                                             \
        yz_part left = part(offset_in, length_in);                                                                   \
        IS(number, yz_table_entry_next(table, encoding, &left), __VA_ARGS__);                                        \
        check(left.offset == (offset_out) && left.length == (length_out), __LINE__, #offset_out ", " #length_out);   \
    } while (0)

static void test_table_entry_next(void) {
    ENTRY(TABLE, little(5, 4), 8, 8, 12, 4, DONE, 0x10);
    ENTRY(TABLE, little(5, 4), 12, 4, 16, 0, DONE, 0x20);
    ENTRY(TABLE, little(5, 4), 16, 0, 16, 0, END);
    ENTRY(BIG_TABLE, big(5, 4), 12, 4, 16, 0, DONE, 0x20);
    ENTRY(TABLE, little(5, 8), 8, 6, 14, 0, CUT_SHORT);
    ENTRY(TABLE, little(5, 8), 14, 0, 14, 0, END);
    ENTRY(TABLE_3, little(5, 3), 8, 6, 11, 3, DONE, 0x10);
    ENTRY(TABLE_3, little(5, 3), 11, 3, 14, 0, DONE, 0x20);
    ENTRY(TABLE_3, little(5, 3), 14, 0, 14, 0, END);
    ENTRY(BIG_TABLE_3, big(5, 3), 11, 3, 14, 0, DONE, 0x20);
    ENTRY(ONE_TO_EIGHT, little(5, 3), 1, 7, 4, 4, DONE, 0x040302);
    ENTRY(ONE_TO_EIGHT, big(5, 3), 1, 7, 4, 4, DONE, 0x020304);
    ENTRY(ONE_TO_EIGHT, little(5, 3), 3, 2, 5, 0, CUT_SHORT);
    ENTRY(TABLE, little(5, 5), 8, 8, 16, 0, BAD_SIZE(5));
    ENTRY(TABLE, little(5, 4), MAX, 2, MAX, 2, END);
    ENTRY(TABLE, little(5, 4), 0, MAX, 0, MAX, END);
    ENTRY(NO_BYTES, little(5, 4), 0, 0, 0, 0, END);
}

#define LISTS_HEADER(section, order, at, ...)                                                                        \
    IS(lists_header_answer, yz_lists_header(section, order, at), __VA_ARGS__)

static void test_lists_header(void) {
    LISTS_HEADER(LISTS, LITTLE, 0, DONE, 5, 4, 0, 0, 2, 12, 12, 10);
    LISTS_HEADER(S("\xaa\0\0\0\x08\0\x05\x08\0\0\0\0\x01"), BIG, 1, DONE, 5, 8, 0, 1, 1, 12, 13, 0);
    LISTS_HEADER(S("\xff\xff\xff\xff\x09\0\0\0\0\0\0\0\x05\0\x08\0\x03\0\0\0\xaa\xbb"), LITTLE, 0, DONE, 5, 8, 1, 0, 3, 20,
                 20, 1);
    LISTS_HEADER(S("\x08\0\0\0\x05\0\x02\0\xff\xff\xff\xff"), LITTLE, 0, DONE, 5, 2, 0, 0, 0xffffffff, 12, 12, 0);
    LISTS_HEADER(S("\x08\0\0\0\x05\0\x03\0\0\0\0\0"), LITTLE, 0, DONE, 5, 3, 0, 0, 0, 12, 12, 0);
    LISTS_HEADER(S("\xff\xff\xff\xff\0\0\0\0\0\0\0\x09\0\x05\x03\0\0\0\0\x01\xaa"), BIG, 0, DONE, 5, 3, 1, 1, 1, 20,
                 20, 1);
    LISTS_HEADER(S("\x08\0\0\0\x04\0\x04\0\0\0\0\0"), LITTLE, 0, REFUSED(YZ_UNKNOWN_VERSION, 4));
    LISTS_HEADER(S("\x08\0\0\0\x05\0\x05\0\0\0\0\0"), LITTLE, 0, BAD_SIZE(5));
    LISTS_HEADER(S("\x08\0\0\0\x05\0\x04\x01\0\0\0\0"), LITTLE, 0, REFUSED(YZ_UNSUPPORTED_SEGMENT_SIZE, 1));
    LISTS_HEADER(S("\xf0\xff\xff\xff"), LITTLE, 0, REFUSED(YZ_UNKNOWN_RESERVED_LENGTH, 0xfffffff0));
    LISTS_HEADER(S("\x07\0\0\0\x05\0\x04\0\0\0\0\0"), LITTLE, 0, CUT_SHORT);
    LISTS_HEADER(LISTS, LITTLE, MAX, CUT_SHORT);
    LISTS_HEADER(NO_BYTES, LITTLE, 0, CUT_SHORT);
}

typedef yz_number get_offset(const uint8_t *, size_t, uint64_t, yz_encoding, uint64_t);

/* Base 1 and the offset there sum to 2^64. */
#define ONES S("\xaa\xff\xff\xff\xff\xff\xff\xff\xff")
#define OFFSET(section, base, encoding, index, ...) IS(number, get(section, base, encoding, index), __VA_ARGS__)

static void get_offsets(get_offset *get) {
    OFFSET(LISTS, 12, little(5, 4), 0, DONE, 20);
    OFFSET(LISTS, 12, little(5, 4), 1, DONE, 22);
    OFFSET(LISTS, 12, little(5, 5), 1, DONE, 22);
    OFFSET(LISTS, 12, little(5, 4), 2, CUT_SHORT);
    OFFSET(ONE_TO_EIGHT, 0, big(5, 4), 1, DONE, 0x05060708);
    OFFSET(ONE_TO_EIGHT, 0, wide(BIG), 0, DONE, UINT64_C(0x0102030405060708));
    OFFSET(ONES, 0, wide(LITTLE), 0, DONE, UINT64_C(0xffffffffffffffaa));
    OFFSET(ONES, 1, wide(LITTLE), 0, TOO_FAR);
    OFFSET(LISTS, 0, little(5, 4), UINT64_C(1) << 62, TOO_FAR);
    OFFSET(LISTS, 0, wide(LITTLE), TWO_TO_61 - 1, CUT_SHORT);
    OFFSET(LISTS, MAX, little(5, 4), MAX, CUT_SHORT);
    OFFSET(NO_BYTES, 0, little(5, 4), 0, CUT_SHORT);
}

static void test_range_get_offset(void) { get_offsets(yz_range_get_offset); }
static void test_location_get_offset(void) { get_offsets(yz_location_get_offset); }

typedef uint64_t default_base(yz_encoding, yz_file_type);

static void default_bases(default_base *base) {
    CHECK(base(little(5, 4), DWO) == 12);
    CHECK(base(big(5, 5), DWO) == 12);
    CHECK(base(wide(LITTLE), DWO) == 20);
    CHECK(base(encoded(65535, 4, true, LITTLE), DWO) == 20);
    CHECK(base(wide(LITTLE), MAIN) == 0);
    CHECK(base(encoded(4, 8, true, LITTLE), DWO) == 0);
}

static void test_range_default_base(void) { default_bases(yz_range_default_base); }
static void test_location_default_base(void) { default_bases(yz_location_default_base); }

/* ---- Walks ---- */

static void test_section_of(void) {
    CHECK(yz_section_of(little(0, 4)) == YZ_SECTION_BEFORE_5);
    CHECK(yz_section_of(encoded(3, 8, true, BIG)) == YZ_SECTION_BEFORE_5);
    CHECK(yz_section_of(little(4, 0)) == YZ_SECTION_BEFORE_5);
    CHECK(yz_section_of(big(5, 255)) == YZ_SECTION_FROM_5);
    CHECK(yz_section_of(wide(BIG)) == YZ_SECTION_FROM_5);
    CHECK(yz_section_of(little(6, 4)) == YZ_SECTION_FROM_5);
    CHECK(yz_section_of(little(65535, 4)) == YZ_SECTION_FROM_5);
}

/* The walk that a test is on. */
static yz_walk walk;

/* A walk that has read no entry. */
static void walk_from(uint64_t at, uint64_t base_address, uint64_t split) {
    walk.at = at;
    walk.base_address = base_address;
    walk.entries = 0;
    walk.split = split;
}

static bool walk_is(uint64_t at, uint64_t base_address, uint64_t entries, uint64_t split) {
    return walk.at == at && walk.base_address == base_address && walk.entries == entries && walk.split == split;
}

/* A call that leaves the walk at a place with a base address and a count of entries, as split as it was, and answers with
 * these fields. */
#define STEP(type, call, at, base_address, entries, ...)                                                             \
    do {                                                                                                             \
        const uint64_t split = walk.split;                                                                           \
        IS(type, call, __VA_ARGS__);                                                                                 \
        check(walk_is(at, base_address, entries, split), __LINE__,                                                   \
              "the walk is at " #at ", " #base_address ", with " #entries);                                          \
    } while (0)

/* An opening that makes this walk, and one that is refused and makes none. */
#define OPENS(call, at, base_address, split)                                                                         \
    do {                                                                                                             \
        old(&walk, sizeof walk);                                                                                     \
        IS(done, call, DONE);                                                                                        \
        check(walk_is(at, base_address, 0, split), __LINE__, "the walk of " #call);                                  \
    } while (0)

#define REFUSES_OPENING(call, ...)                                                                                   \
    do {                                                                                                             \
        old(&walk, sizeof walk);                                                                                     \
        IS(done, call, __VA_ARGS__);                                                                                 \
        check(walk_is(OLD_WORD, OLD_WORD, OLD_WORD, OLD_WORD), __LINE__, "untouched: " #call);                       \
    } while (0)

static void test_range_open(void) {
    OPENS(yz_range_open(S("abc"), little(5, 4), 2, 7, &walk), 2, 7, 0);
    OPENS(yz_range_open(S("abc"), encoded(2, 8, true, BIG), 3, MAX, &walk), 3, MAX, 0);
    OPENS(yz_range_open(NO_BYTES, little(5, 1), 0, 0, &walk), 0, 0, 0);
    OPENS(yz_range_open(S("abc"), big(4, 3), 2, 7, &walk), 2, 7, 0);
    REFUSES_OPENING(yz_range_open(NO_BYTES, little(5, 3), 1, 0, &walk), CUT_SHORT);
    REFUSES_OPENING(yz_range_open(NO_BYTES, little(4, 2), 1, 0, &walk), CUT_SHORT);
    REFUSES_OPENING(yz_range_open(S("abc"), little(5, 4), 4, 0, &walk), CUT_SHORT);
    REFUSES_OPENING(yz_range_open(S("abc"), little(5, 4), MAX, 0, &walk), CUT_SHORT);
    REFUSES_OPENING(yz_range_open(S("abc"), little(5, 5), MAX, 0, &walk), BAD_SIZE(5));
}

static void test_location_open(void) {
    OPENS(yz_location_open(S("abc"), little(5, 4), MAIN, 2, 7, &walk), 2, 7, 0);
    OPENS(yz_location_open(S("abc"), little(5, 4), DWO, 2, 7, &walk), 2, 7, 1);
    OPENS(yz_location_open(S("abc"), encoded(2, 8, true, BIG), DWO, 3, MAX, &walk), 3, MAX, 1);
    OPENS(yz_location_open(NO_BYTES, little(5, 1), MAIN, 0, 0, &walk), 0, 0, 0);
    OPENS(yz_location_open(S("abc"), big(4, 3), DWO, 2, 7, &walk), 2, 7, 1);
    REFUSES_OPENING(yz_location_open(NO_BYTES, little(5, 3), MAIN, 1, 0, &walk), CUT_SHORT);
    REFUSES_OPENING(yz_location_open(NO_BYTES, little(4, 2), DWO, 1, 0, &walk), CUT_SHORT);
    REFUSES_OPENING(yz_location_open(S("abc"), little(5, 4), MAIN, 4, 0, &walk), CUT_SHORT);
    REFUSES_OPENING(yz_location_open(S("abc"), little(5, 4), DWO, MAX, 0, &walk), CUT_SHORT);
    REFUSES_OPENING(yz_location_open(S("abc"), little(5, 5), MAIN, MAX, 0, &walk), BAD_SIZE(5));
}

/* ---- Calls over range lists, of which each test makes those that `by` names: without a table, by one with DWARF's own
 * numbers, or by a supplier's over the same list with the supplier's codes. The answers are the same. ---- */

/* The operands of a bare pair and of kinds, as docs/SCOPE.md has them: n is a LEB128 number, a an address, l a length, and x an
 * expression, which begins with its length. From version 5 on these two lengths are LEB128; before, l has four bytes and that of
 * x two. */
static const char *const range_operands[] = {"aa", "n", "nn", "nn", "nn", "a", "aa", "an"};
static const char *const location_operands[] = {"aax", "n", "nnx", "nlx", "nnx", "x", "a", "aax", "anx"};

/* The arguments of the calls, up to what is asked for. */
#define SECTION const uint8_t *section, size_t section_len
#define LIST_AND_TABLE SECTION, const uint8_t *debug_addr, size_t debug_addr_len, uint64_t debug_addr_base, yz_encoding encoding
#define WHOLE LIST_AND_TABLE, uint64_t offset, uint64_t base_address
typedef struct range_calls {
    yz_range (*next)(LIST_AND_TABLE, yz_walk *);
    yz_range (*next_in_profile)(LIST_AND_TABLE, yz_walk *);
    yz_raw_range (*next_raw)(SECTION, yz_encoding encoding, yz_walk *);
    yz_range (*lookup)(WHOLE, uint64_t address);
    yz_count (*lookups)(WHOLE, const uint64_t *, size_t, yz_found *);
    yz_count (*coverage)(WHOLE, yz_bounds *, yz_bounds *);
    yz_count (*runs)(WHOLE, uint64_t *, size_t, uint64_t *, size_t);
    yz_count (*canonical)(WHOLE, uint8_t *, size_t);
} range_calls;

/* A supplier's code for each kind. Some are other kinds' numbers; 8, 9 and ff, which lists of the tests have for no kind, are
 * none. */
static const uint8_t codes[] = {0x10, 0xfe, 0x03, 0x02, 0x07, 0, 0x80, 0x04};

/* A list from a place on, with these codes in place of the kinds that reading meets; bare pairs have none. */
static const uint8_t *recoded(SECTION, yz_encoding encoding, uint64_t at) {
    static uint8_t copy[sizeof made];
    if (encoding.version < 5 || section_len == 0) return section;
    memcpy(copy, section, section_len);
    while (at < section_len && section[at] < sizeof codes) {
        const uint8_t kind = section[at];
        const char *operand = range_operands[kind];
        copy[at++] = codes[kind];
        for (; kind != 0 && *operand != 0; operand++) {
            if (*operand == 'a') {
                at += encoding.address_size;
                continue;
            }
            while (at < section_len && section[at] > 0x7f)
                at++;
            at++;
        }
        if (kind == 0) break;
    }
    return copy;
}

/* Both tables. */
static uint8_t dwarf_kinds[YZ_KIND_CODES], supplier_kinds[YZ_KIND_CODES];

static void make_tables(void) {
    uint8_t kind;
    memset(dwarf_kinds, YZ_NO_KIND, sizeof dwarf_kinds);
    memset(supplier_kinds, YZ_NO_KIND, sizeof supplier_kinds);
    for (kind = 0; kind < sizeof codes; kind++) {
        dwarf_kinds[kind] = kind;
        supplier_kinds[codes[kind]] = kind;
    }
}

/* The calls by a table, over the section as it is or as it is made of it. */
#define LENT debug_addr, debug_addr_len, debug_addr_base, encoding
#define CALLS_BY(name, made_of, table)                                                                               \
    static yz_range next_##name(LIST_AND_TABLE, yz_walk *w) {                                                        \
        return yz_range_next_by(made_of(w->at), section_len, LENT, table, sizeof table, w);                          \
    }                                                                                                                \
    static yz_range next_in_profile_##name(LIST_AND_TABLE, yz_walk *w) {                                             \
        return yz_range_next_in_profile_by(made_of(w->at), section_len, LENT, table, sizeof table, w);               \
    }                                                                                                                \
    static yz_raw_range next_raw_##name(SECTION, yz_encoding encoding, yz_walk *w) {                                 \
        return yz_range_next_raw_by(made_of(w->at), section_len, encoding, table, sizeof table, w);                  \
    }                                                                                                                \
    static yz_range lookup_##name(WHOLE, uint64_t address) {                                                         \
        return yz_range_lookup_by(made_of(offset), section_len, LENT, offset, base_address, table, sizeof table, address); \
    }                                                                                                                \
    static yz_count lookups_##name(WHOLE, const uint64_t *a, size_t a_len, yz_found *f) {                            \
        return yz_range_lookups_by(made_of(offset), section_len, LENT, offset, base_address, table, sizeof table, a, a_len, f); \
    }                                                                                                                \
    static yz_count coverage_##name(WHOLE, yz_bounds *b, yz_bounds *e) {                                             \
        return yz_range_coverage_by(made_of(offset), section_len, LENT, offset, base_address, table, sizeof table, b, e); \
    }                                                                                                                \
    static yz_count runs_##name(WHOLE, uint64_t *b, size_t b_len, uint64_t *e, size_t e_len) {                       \
        return yz_range_runs_by(made_of(offset), section_len, LENT, offset, base_address, table, sizeof table, b, b_len, e, \
                                e_len);                                                                              \
    }                                                                                                                \
    static yz_count canonical_##name(WHOLE, uint8_t *o, size_t o_len) {                                              \
        return yz_range_canonical_by(made_of(offset), section_len, LENT, offset, base_address, table, sizeof table, o, o_len); \
    }                                                                                                                \
    static const range_calls name = {                                                                                \
        next_##name,    next_in_profile_##name, next_raw_##name, lookup_##name,                                      \
        lookups_##name, coverage_##name,        runs_##name,     canonical_##name,                                   \
    };
#define AS_IT_IS(at) section
#define RECODED(at) recoded(section, section_len, encoding, at)
CALLS_BY(by_dwarf, AS_IT_IS, dwarf_kinds)
CALLS_BY(by_supplier, RECODED, supplier_kinds)
static const range_calls without_table = {
    yz_range_next,    yz_range_next_in_profile, yz_range_next_raw, yz_range_lookup,
    yz_range_lookups, yz_range_coverage,        yz_range_runs,     yz_range_canonical,
};
static const range_calls *by = &without_table;

/* A test by each of the two tables. */
static void by_tables(void (*run)(void)) {
    by = &by_dwarf;
    run();
    by = &by_supplier;
    run();
    by = &without_table;
}

/* ---- Range lists. They leave a walk's word for split lists as it is, whatever it is. ---- */

static void ranges_from(uint64_t at, uint64_t base_address) { walk_from(at, base_address, OLD_WORD); }

#define NEXT(list, table, encoding, at, base_address, entries, ...)                                                  \
    STEP(range, by->next(list, table, 8, encoding, &walk), at, base_address, entries, __VA_ARGS__)

/* Addresses of three bytes. */
static void ranges_of_three(void) {
    ranges_from(0, 0);
    NEXT(S("\x06\x10\0\0\x20\0\0\0"), TABLE_3, little(5, 3), 7, 0, 1, DONE, 0x10, 0x20);
    NEXT(S("\x06\x10\0\0\x20\0\0\0"), TABLE_3, little(5, 3), 8, 0, 2, END);
    ranges_from(0, 0);
    NEXT(S("\x06\0\0\x10\0\0\x20\0"), BIG_TABLE_3, big(5, 3), 7, 0, 1, DONE, 0x10, 0x20);
    NEXT(S("\x06\0\0\x10\0\0\x20\0"), BIG_TABLE_3, big(5, 3), 8, 0, 2, END);
    ranges_from(0, 0);
    NEXT(S("\x06\x01\x02\x03\x04\x05\x06"), TABLE_3, little(5, 3), 7, 0, 1, DONE, 0x030201, 0x060504);
    ranges_from(0, 0);
    NEXT(S("\x06\x01\x02\x03\x04\x05\x06"), BIG_TABLE_3, big(5, 3), 7, 0, 1, DONE, 0x010203, 0x040506);
    ranges_from(0, 0);
    NEXT(S("\x05\x10\x20\x30\x04\x01\x02\0"), TABLE_3, little(5, 3), 7, 0x302010, 2, DONE, 0x302011, 0x302012);
    ranges_from(0, 0xfffffd);
    NEXT(S("\x04\0\x01\0"), TABLE_3, little(5, 3), 3, 0xfffffd, 1, DONE, 0xfffffd, 0xfffffe);
    ranges_from(0, 0xfffffe);
    NEXT(S("\x04\0\x01\0"), TABLE_3, little(5, 3), 4, 0xfffffe, 2, END);
    ranges_from(0, 0xffff00);
    NEXT(S("\x04\x80\x02\x90\x02\0"), TABLE_3, little(5, 3), 5, 0xffff00, 1, DONE, 0, 0x10);
    ranges_from(0, 0);
    NEXT(S("\x07\xf0\xff\xff\x0f\0"), TABLE_3, little(5, 3), 5, 0, 1, DONE, 0xfffff0, 0xffffff);
    ranges_from(0, 0);
    NEXT(S("\x07\xf0\xff\xff\x10\0"), TABLE_3, little(5, 3), 6, 0, 2, END);
    ranges_from(0, 0);
#define LIST S("\xff\xff\xff\0\x20\0\x01\0\0\x03\0\0\0\0\0\0\0\0")
    NEXT(LIST, TABLE_3, little(4, 3), 12, 0x2000, 2, DONE, 0x2001, 0x2003);
    NEXT(LIST, TABLE_3, little(4, 3), 18, 0x2000, 3, END);
#undef LIST
    ranges_from(0, 0);
#define LIST S("\xff\xff\xff\x10\x20\x30\0\0\x01\0\0\x03")
    NEXT(LIST, BIG_TABLE_3, big(3, 3), 12, 0x102030, 2, DONE, 0x102031, 0x102033);
    NEXT(LIST, BIG_TABLE_3, big(3, 3), 12, 0x102030, 2, END);
#undef LIST
    /* No base selection: of 00ffff not all bits are set. */
    ranges_from(0, 0);
    NEXT(S("\xff\xff\0\xff\xff\x01"), TABLE_3, little(4, 3), 6, 0, 1, DONE, 0xffff, 0x01ffff);
    ranges_from(0, 0);
#define LIST S("\x02\0\x02\x02\0\x01\x01\x01\x04\0\x05\0")
    NEXT(LIST, TABLE_3, little(5, 3), 3, 0, 1, CUT_SHORT);
    NEXT(LIST, TABLE_3, little(5, 3), 6, 0, 2, DONE, 0x10, 0x20);
    NEXT(LIST, TABLE_3, little(5, 3), 11, 0x20, 4, DONE, 0x20, 0x25);
#undef LIST
    ranges_from(0, 0);
    NEXT(S("\x03\x01\x08\0"), BIG_TABLE_3, big(5, 3), 3, 0, 1, DONE, 0x20, 0x28);
    ranges_from(0, 7);
    NEXT(S("\x06\x10\0"), TABLE_3, little(5, 3), 3, 7, 0, CUT_SHORT);
    ranges_from(0, 7);
    NEXT(S("\xff\xff\xff\0\x20"), TABLE_3, little(4, 3), 5, 7, 0, CUT_SHORT);
    ranges_from(0, 7);
    NEXT(S("\x03" INDEX_THIRD "\0\0"), TABLE_3, little(5, 3), 11, 7, 1, CUT_SHORT);
    ranges_from(0, 7);
    NEXT(S("\x03" INDEX_PAST_THIRD "\0\0"), TABLE_3, little(5, 3), 11, 7, 1, TOO_FAR);
}

/* Entries that count, and those that don't; counts that are handed in. */
static void ranges_counted(void) {
    ranges_from(0, 0);
    NEXT(S("\0"), TABLE, little(5, 4), 1, 0, 1, END);
    NEXT(S("\0"), TABLE, little(5, 4), 1, 0, 1, END);
    ranges_from(0, 0);
    NEXT(S("\x06\x10\0\0\0\x20\0\0\0\0"), TABLE, little(5, 4), 9, 0, 1, DONE, 0x10, 0x20);
    NEXT(S("\x06\x10\0\0\0\x20\0\0\0\0"), TABLE, little(5, 4), 10, 0, 2, END);
    NEXT(S("\x06\x10\0\0\0\x20\0\0\0\0"), TABLE, little(5, 4), 10, 0, 2, END);
    ranges_from(0, 0);
    NEXT(S("\x06\x10\0\0\0\x20\0\0\0"), TABLE, little(5, 4), 9, 0, 1, DONE, 0x10, 0x20);
    NEXT(S("\x06\x10\0\0\0\x20\0\0\0"), TABLE, little(5, 4), 9, 0, 1, END);
    ranges_from(0, 0);
#define LIST S("\x05\0\x10\0\0\x04\x01\x02\x04\x03\x03\x04\x05\x06\0\xff")
    NEXT(LIST, TABLE, little(5, 4), 8, 0x1000, 2, DONE, 0x1001, 0x1002);
    NEXT(LIST, TABLE, little(5, 4), 14, 0x1000, 4, DONE, 0x1005, 0x1006);
    NEXT(LIST, TABLE, little(5, 4), 16, 0x1000, 5, END);
    ranges_from(0, 0);
    walk.entries = MAX - 1;
    NEXT(LIST, TABLE, little(5, 4), 8, 0x1000, MAX, DONE, 0x1001, 0x1002);
#undef LIST
    ranges_from(0, 0);
#define LIST S("\x07\x10\0\0\0\x01\x08")
    NEXT(LIST, TABLE, little(5, 4), 6, 0, 1, DONE, 0x10, 0x11);
    NEXT(LIST, TABLE, little(5, 4), 7, 0, 1, REFUSED(YZ_UNKNOWN_RANGE_LISTS_ENTRY, 8));
    NEXT(LIST, TABLE, little(5, 4), 7, 0, 1, END);
#undef LIST
    ranges_from(0, 0);
#define LIST S("\x07\x10\0\0\0\x01\0")
    walk.entries = MAX;
    NEXT(LIST, TABLE, little(5, 4), 6, 0, MAX, DONE, 0x10, 0x11);
    NEXT(LIST, TABLE, little(5, 4), 7, 0, MAX, END);
    ranges_from(0, 0);
    walk.entries = MAX - 1;
    NEXT(LIST, TABLE, little(5, 4), 6, 0, MAX, DONE, 0x10, 0x11);
    NEXT(LIST, TABLE, little(5, 4), 7, 0, MAX, END);
#undef LIST
    ranges_from(0, 0);
#define LIST S("\xff\xff\0\x20\x03\0\x03\0\x01\0\x03\0\0\0\0\0\x01")
    walk.entries = 7;
    NEXT(LIST, TABLE, little(4, 2), 12, 0x2000, 10, DONE, 0x2001, 0x2003);
    NEXT(LIST, TABLE, little(4, 2), 17, 0x2000, 11, END);
    NEXT(LIST, TABLE, little(4, 2), 17, 0x2000, 11, END);
#undef LIST
    /* Refused lookups, by 9 and by 1. */
    ranges_from(0, 0);
    walk.entries = MAX - 2;
    NEXT(S("\x03" INDEX_2_61 "\0\x01\x09\0"), TABLE, little(5, 8), 11, 0, MAX - 1, TOO_FAR);
    NEXT(S("\x03" INDEX_2_61 "\0\x01\x09\0"), TABLE, little(5, 8), 13, 0, MAX, CUT_SHORT);
    NEXT(S("\x03" INDEX_2_61 "\0\x01\x09\0"), TABLE, little(5, 8), 14, 0, MAX, END);
    /* Refused entries, and a refused size. */
    ranges_from(0, 7);
    NEXT(S("\x08"), TABLE, little(5, 4), 1, 7, 0, REFUSED(YZ_UNKNOWN_RANGE_LISTS_ENTRY, 8));
    ranges_from(0, 7);
    walk.entries = 7;
    NEXT(S("\x04\x01\x01\x06\x10\0"), TABLE, little(5, 4), 6, 7, 8, CUT_SHORT);
    NEXT(S("\x04\x01\x01\x06\x10\0"), TABLE, little(5, 4), 6, 7, 8, END);
    ranges_from(0, 7);
    walk.entries = 7;
    NEXT(S("\x04" NINE "\x02\x01"), TABLE, little(5, 4), 12, 7, 7, REFUSED(YZ_BAD_UNSIGNED_LEB128, 0));
    ranges_from(0, 7);
    walk.entries = 7;
    NEXT(S("\0"), TABLE, little(5, 5), 1, 7, 7, BAD_SIZE(5));
    NEXT(S("\0"), TABLE, little(5, 5), 1, 7, 7, BAD_SIZE(5));
    ranges_from(99, 7);
    walk.entries = 7;
    NEXT(S("\0"), TABLE, little(5, 4), 99, 7, 7, END);
}

static void test_range_next(void) {
    ranges_from(0, 0);
#define LIST S("\x02\0\x02\x03\0\x08\0")
    NEXT(LIST, TABLE, little(5, 4), 3, 0, 1, CUT_SHORT);
    NEXT(LIST, TABLE, little(5, 4), 6, 0, 2, DONE, 0x10, 0x18);
    NEXT(LIST, TABLE, little(5, 4), 7, 0, 3, END);
    NEXT(LIST, TABLE, little(5, 4), 7, 0, 3, END);
#undef LIST
    ranges_from(1, 0x1000);
    NEXT(S("\x09\x04\x01\x82\0\0\0\0\0"), TABLE, little(5, 4), 5, 0x1000, 1, DONE, 0x1001, 0x1002);
    ranges_from(0, 0xfffffffd);
    NEXT(S("\x04\0\x01\0"), TABLE, little(5, 4), 3, 0xfffffffd, 1, DONE, 0xfffffffd, 0xfffffffe);
    ranges_from(0, 0xfffffffe);
    NEXT(S("\x04\0\x01\0"), TABLE, little(5, 4), 4, 0xfffffffe, 2, END);
    ranges_from(0, 0xffffff00);
    NEXT(S("\x04\x80\x02\x90\x02\0"), TABLE, little(5, 4), 5, 0xffffff00, 1, DONE, 0, 0x10);
    ranges_from(0, 0);
    NEXT(S("\x07\xf0\x0f\0"), TABLE, little(5, 1), 3, 0, 1, DONE, 0xf0, 0xff);
    ranges_from(0, 0);
    NEXT(S("\x07\xf0\x20\0\xaa\xaa"), TABLE, little(5, 1), 6, 0, 2, END);
    ranges_from(0, 0);
#define LIST S("\xff\xff\0\x20\x01\0\x03\0\0\0\0\0\x01")
    NEXT(LIST, TABLE, little(4, 2), 8, 0x2000, 2, DONE, 0x2001, 0x2003);
    NEXT(LIST, TABLE, little(4, 2), 13, 0x2000, 3, END);
#undef LIST
    ranges_from(0, 0);
    NEXT(S("\x06\0\0\0\x10\0\0\0\x20\0"), BIG_TABLE, big(5, 4), 9, 0, 1, DONE, 0x10, 0x20);
    ranges_from(0, 0);
    NEXT(S("\x01\x01\x04\0\x05\0"), BIG_TABLE, big(6, 4), 5, 0x20, 2, DONE, 0x20, 0x25);
    ranges_from(0, 7);
    NEXT(S("\x08\x04\x01\x02"), TABLE, little(5, 4), 4, 7, 0, REFUSED(YZ_UNKNOWN_RANGE_LISTS_ENTRY, 8));
    NEXT(S("\x08\x04\x01\x02"), TABLE, little(5, 4), 4, 7, 0, END);
    ranges_from(0, 7);
    NEXT(S("\x06\x10\0"), TABLE, little(5, 4), 3, 7, 0, CUT_SHORT);
    ranges_from(0, 7);
    NEXT(S("\x04" NINE "\x02\x01"), TABLE, little(5, 4), 12, 7, 0, REFUSED(YZ_BAD_UNSIGNED_LEB128, 0));
    ranges_from(0, 7);
    NEXT(S("\x03" INDEX_2_61 "\0\0"), TABLE, little(5, 8), 11, 7, 1, TOO_FAR);
    ranges_from(0, 7);
    NEXT(S("\x04\x01\x02"), TABLE, little(5, 5), 3, 7, 0, BAD_SIZE(5));
    NEXT(S("\x04\x01\x02"), TABLE, little(5, 5), 3, 7, 0, BAD_SIZE(5));
    ranges_from(MAX, 7);
    NEXT(S("\x04\x01\x02"), TABLE, little(5, 4), MAX, 7, 0, END);
    ranges_from(0, 7);
    NEXT(NO_BYTES, NO_BYTES, little(5, 4), 0, 7, 0, END);
    ranges_of_three();
    ranges_counted();
}

/* ---- Padded numbers of entries ---- */

/* What is written into an entry: two numbers, a length, and how many bytes are added to a number that is padded. Where a length
 * is not LEB128, this one is its first byte, and 00 the others. */
typedef struct operands {
    uint64_t numbers[2], length;
    unsigned padding;
} operands;
static const operands written[] = {
    {{1, 2}, 1, 1}, {{0, 0x7f}, 0, 1}, {{0x7f, 0}, 2, 9}, {{0x80, 0x3fff}, 0x80, 1}, {{0x4000, MAX >> 1}, 0x80, 1},
};
#define WRITTEN (sizeof written / sizeof *written)

/* Whether an operand of an entry, or the length that it begins with, is LEB128. */
static bool is_leb128(char operand, uint16_t version) { return operand == 'n' || (operand != 'a' && version >= 5); }

/* Bytes that are no LEB128 number, two that are given and then 00; the number that they are. */
static uint64_t put_fixed(uint8_t first, uint8_t second, size_t width, bool big_endian) {
    uint64_t number = 0;
    size_t i;
    for (i = 0; i < width; i++) {
        const uint64_t byte = i == 0 ? first : i == 1 ? second : 0;
        put((uint8_t)byte);
        number |= byte << 8 * (big_endian ? width - 1 - i : i);
    }
    return number;
}

/* An entry at place 2, or for kind 0 a bare pair, and what a raw call answers to it. Its LEB128 numbers are padded as the bits of
 * `which` say, the first by the lowest. Other bytes before it, in it and, two of them, behind it are like padded numbers. */
static fields make_entry(bool locations, uint64_t kind, yz_encoding encoding, const operands *given, unsigned which) {
    fields answer = fields_of(YZ_DONE, YZ_NO_REFUSAL, 0);
    const char *operand = (locations ? location_operands : range_operands)[kind];
    const bool big_endian = encoding.big_endian != 0;
    size_t n = 0;
    answer.at[3] = kind;
    answer.at[locations ? 8 : 6] = which != 0;
    made_len = 0;
    put(0x80);
    put(0);
    if (kind != 0) put((uint8_t)kind);
    for (; *operand != 0; operand++) {
        uint64_t number;
        if (is_leb128(*operand, encoding.version)) {
            number = *operand == 'x' ? given->length : given->numbers[n];
            put_uleb128(number, which % 2 == 1 ? given->padding : 0);
            which /= 2;
        } else if (*operand == 'a') {
            /* A bare pair begins like kind 4 with a padded number. */
            const bool first = kind == 0 && n == 0;
            number = put_fixed(first ? 4 : 0x80, first ? 0x80 : 0, encoding.address_size, big_endian);
        } else {
            number = put_fixed((uint8_t)given->length, 0, *operand == 'x' ? 2 : 4, big_endian);
        }
        if (*operand != 'x') {
            answer.at[4 + n++] = number;
            continue;
        }
        answer.at[6] = made_len;
        answer.at[7] = number;
        memset(made + made_len, 0, number);
        if (number > 0) made[made_len] = 0x80;
        made_len += number;
    }
    made[made_len] = 0x80;
    made[made_len + 1] = 0;
    return answer;
}

/* The same for a base selection, which stands among bare pairs. */
static fields make_base(bool locations, yz_encoding encoding) {
    fields answer = fields_of(YZ_DONE, YZ_NO_REFUSAL, 0);
    size_t i;
    made_len = 0;
    put(0x80);
    put(0);
    for (i = 0; i < encoding.address_size; i++)
        put(0xff);
    answer.at[3] = locations ? (uint64_t)YZ_LLE_BASE_ADDRESS : (uint64_t)YZ_RLE_BASE_ADDRESS;
    answer.at[4] = put_fixed(0x80, 0, encoding.address_size, encoding.big_endian != 0);
    made[made_len] = 0x80;
    made[made_len + 1] = 0;
    return answer;
}

/* The next raw entry of the bytes that were made, cut to a length. */
static fields raw_of_made(bool locations, yz_encoding encoding, size_t len) {
    if (locations) return of_raw_location(yz_location_next_raw(made, len, encoding, &walk));
    return of_raw_range(by->next_raw(made, len, encoding, &walk));
}

/* Whether the entry at place 2 is answered as it must be, whole, with bytes behind it and cut short. */
static bool entry_is(bool locations, uint64_t split, yz_encoding encoding, fields answer) {
    const fields end = fields_of(YZ_END, YZ_NO_REFUSAL, 0), cut = fields_of(YZ_REFUSED, YZ_UNEXPECTED_EOF, 0);
    size_t len;
    for (len = made_len; len <= made_len + 2; len++) {
        fields got;
        walk_from(2, 7, split);
        got = raw_of_made(locations, encoding, len);
        if (memcmp(&got, &answer, sizeof got) != 0 || !walk_is(made_len, 7, 1, split)) return false;
    }
    for (len = 3; len < made_len; len += 1 + len / 64) {
        fields got, then;
        walk_from(2, 7, split);
        got = raw_of_made(locations, encoding, len);
        if (memcmp(&got, &cut, sizeof got) != 0 || !walk_is(len, 7, 0, split)) return false;
        then = raw_of_made(locations, encoding, len);
        if (memcmp(&then, &end, sizeof then) != 0 || !walk_is(len, 7, 0, split)) return false;
    }
    return true;
}

/* Every kind of a version's entries, with none of its LEB128 numbers padded, each of them and any of them, in both orders and of
 * all sizes; a check for each kind, order and size. */
static void entries_padded(bool locations, uint64_t split, uint16_t version) {
    static const uint8_t sizes[] = {1, 2, 3, 4, 8};
    const bool kinds = version >= 5 || (locations && split != 0);
    const uint64_t last = !kinds ? 0 : locations ? 8 : 7;
    uint64_t kind;
    size_t i, j;
    unsigned big_endian, which;
    for (i = 0; i < sizeof sizes; i++)
        for (big_endian = 0; big_endian < 2; big_endian++) {
            const yz_encoding encoding = encoded(version, sizes[i], false, big_endian);
            if (!kinds) CHECK(entry_is(locations, split, encoding, make_base(locations, encoding)));
            for (kind = kinds; kind <= last; kind++) {
                const char *operand = (locations ? location_operands : range_operands)[kind];
                unsigned choices = 1;
                bool all = true;
                for (; *operand != 0; operand++)
                    choices <<= is_leb128(*operand, version);
                for (j = 0; j < WRITTEN; j++)
                    for (which = 0; which < choices; which++) {
                        const fields answer = make_entry(locations, kind, encoding, &written[j], which);
                        if (entry_is(locations, split, encoding, answer)) continue;
                        printf("test.c: version %u, split %u, size %u, big endian %u, kind %u, operands %u, padded %u: not so\n",
                               version, split != 0, sizes[i], big_endian, (unsigned)kind, (unsigned)j, which);
                        all = false;
                    }
                check(all, __LINE__, "every choice of padded numbers");
            }
        }
}

#define RAW(list, encoding, at, entries, ...)                                                                        \
    STEP(raw_range, by->next_raw(list, encoding, &walk), at, 7, entries, __VA_ARGS__)

static void padded_ranges(void) {
    /* Entries whose first number is padded, or the second, or none. */
#define LIST S("\x04\x01\x82\0\0")
    ranges_from(0, 7);
    RAW(LIST, little(5, 4), 4, 1, DONE, YZ_RLE_OFFSET_PAIR, 1, 2, 1);
    RAW(LIST, little(5, 4), 5, 2, END);
    RAW(LIST, little(5, 4), 5, 2, END);
#undef LIST
    ranges_from(0, 7);
    RAW(S("\x04\x01\x02\0"), little(5, 4), 3, 1, DONE, YZ_RLE_OFFSET_PAIR, 1, 2, 0);
    ranges_from(0, 7);
    RAW(S("\x04\x81\0\x02"), little(5, 4), 4, 1, DONE, YZ_RLE_OFFSET_PAIR, 1, 2, 1);
    RAW(S("\x04\x81\0\x02"), little(5, 4), 4, 1, END);
    ranges_from(0, 7);
    RAW(S("\x01\x80\0\0"), little(5, 4), 3, 1, DONE, YZ_RLE_BASE_ADDRESSX, 0, 0, 1);
    ranges_from(0, 7);
    RAW(S("\x07\x10\0\0\0\x90\0\0"), little(5, 4), 7, 1, DONE, YZ_RLE_START_LENGTH, 0x10, 0x10, 1);
    ranges_from(0, 7);
    RAW(S("\x06\x10\0\0\0\x20\0\0\0\0"), little(5, 4), 9, 1, DONE, YZ_RLE_START_END, 0x10, 0x20, 0);
    ranges_from(0, 7);
    RAW(S("\x01\0\x02\0\0\0\0\0"), little(4, 2), 4, 1, DONE, YZ_RLE_ADDRESS_OR_OFFSET_PAIR, 1, 2, 0);
    /* Ten bytes. */
    ranges_from(0, 7);
    RAW(S("\x04" NINE "\x01" NINE "\x01"), little(5, 4), 21, 1, DONE, YZ_RLE_OFFSET_PAIR, UINT64_C(1) << 63,
        UINT64_C(1) << 63, 0);
    ranges_from(0, 7);
    RAW(S("\x04" NINE "\x01" NINE "\0"), little(5, 4), 21, 1, DONE, YZ_RLE_OFFSET_PAIR, UINT64_C(1) << 63, 0, 1);
    /* Refused, and at the end, whatever was read before. */
    ranges_from(0, 7);
    RAW(S("\x04\x80\0"), little(5, 4), 3, 0, CUT_SHORT);
    ranges_from(0, 7);
    RAW(S("\x04\x80\0" NINE "\x02"), little(5, 4), 13, 0, REFUSED(YZ_BAD_UNSIGNED_LEB128, 0));
    ranges_from(0, 7);
    RAW(S("\x01\x80\0"), little(5, 5), 3, 0, BAD_SIZE(5));
    ranges_from(MAX, 7);
    RAW(S("\x01\x80\0"), little(5, 4), MAX, 0, END);
    /* Each entry by its own numbers. */
#define LIST S("\x01\x80\0\x01\0\x02\x80\0\x81\0\x03\0\x01\x04\0\x81\0\x08\x80\0")
    ranges_from(0, 7);
    RAW(LIST, little(5, 4), 3, 1, DONE, YZ_RLE_BASE_ADDRESSX, 0, 0, 1);
    RAW(LIST, little(5, 4), 5, 2, DONE, YZ_RLE_BASE_ADDRESSX, 0, 0, 0);
    RAW(LIST, little(5, 4), 10, 3, DONE, YZ_RLE_STARTX_ENDX, 0, 1, 1);
    RAW(LIST, little(5, 4), 13, 4, DONE, YZ_RLE_STARTX_LENGTH, 0, 1, 0);
    RAW(LIST, little(5, 4), 17, 5, DONE, YZ_RLE_OFFSET_PAIR, 0, 1, 1);
    RAW(LIST, little(5, 4), 20, 5, REFUSED(YZ_UNKNOWN_RANGE_LISTS_ENTRY, 8));
    RAW(LIST, little(5, 4), 20, 5, END);
#undef LIST
    entries_padded(false, OLD_WORD, 2);
    entries_padded(false, OLD_WORD, 4);
    entries_padded(false, OLD_WORD, 5);
    entries_padded(false, OLD_WORD, 6);
}

static void test_range_next_raw(void) {
    ranges_from(0, 7);
#define LIST S("\x01\x09\x02\x08\x07\x03\x06\x05\x04\x04\x05\x05\x33\x06\x02\x03\x07\x01\x02\0\x09")
    RAW(LIST, little(5, 1), 2, 1, DONE, YZ_RLE_BASE_ADDRESSX, 9, 0);
    RAW(LIST, little(5, 1), 5, 2, DONE, YZ_RLE_STARTX_ENDX, 8, 7);
    RAW(LIST, little(5, 1), 8, 3, DONE, YZ_RLE_STARTX_LENGTH, 6, 5);
    RAW(LIST, little(5, 1), 11, 4, DONE, YZ_RLE_OFFSET_PAIR, 4, 5);
    RAW(LIST, little(5, 1), 13, 5, DONE, YZ_RLE_BASE_ADDRESS, 0x33, 0);
    RAW(LIST, little(5, 1), 16, 6, DONE, YZ_RLE_START_END, 2, 3);
    RAW(LIST, little(5, 1), 19, 7, DONE, YZ_RLE_START_LENGTH, 1, 2);
    RAW(LIST, little(5, 1), 21, 8, END);
#undef LIST
    ranges_from(0, 7);
    RAW(S("\xff\x20\x03\x05"), little(4, 1), 2, 1, DONE, YZ_RLE_BASE_ADDRESS, 0x20, 0);
    RAW(S("\xff\x20\x03\x05"), little(4, 1), 4, 2, DONE, YZ_RLE_ADDRESS_OR_OFFSET_PAIR, 3, 5);
    RAW(S("\xff\x20\x03\x05"), little(4, 1), 4, 2, END);
    ranges_from(0, 7);
    RAW(S("\x05\0\x01"), encoded(6, 2, true, BIG), 3, 1, DONE, YZ_RLE_BASE_ADDRESS, 1, 0);
    ranges_from(0, 7);
#define LIST S("\x05\x01\x02\x03\x06\x01\x02\x03\x04\x05\x06\x07\x01\x02\x03\x80\x01\0")
    RAW(LIST, little(5, 3), 4, 1, DONE, YZ_RLE_BASE_ADDRESS, 0x030201, 0);
    RAW(LIST, little(5, 3), 11, 2, DONE, YZ_RLE_START_END, 0x030201, 0x060504);
    RAW(LIST, little(5, 3), 17, 3, DONE, YZ_RLE_START_LENGTH, 0x030201, 0x80);
    RAW(LIST, little(5, 3), 18, 4, END);
#undef LIST
    ranges_from(0, 7);
#define LIST S("\xff\xff\xff\x01\x02\x03\0\0\x03\x04\x05\x06\0\0\0\0\0")
    RAW(LIST, big(4, 3), 6, 1, DONE, YZ_RLE_BASE_ADDRESS, 0x010203, 0);
    RAW(LIST, big(4, 3), 12, 2, DONE, YZ_RLE_ADDRESS_OR_OFFSET_PAIR, 3, 0x040506);
    RAW(LIST, big(4, 3), 17, 2, CUT_SHORT);
#undef LIST
    ranges_from(0, 7);
    RAW(S("\x06\x01\x02\x03\x04\x05"), big(5, 3), 6, 0, CUT_SHORT);
    ranges_from(0, 7);
    RAW(S("\xff\0\0"), little(5, 1), 3, 0, REFUSED(YZ_UNKNOWN_RANGE_LISTS_ENTRY, 0xff));
    ranges_from(0, 7);
    RAW(S("\x06\x01"), little(5, 1), 2, 0, CUT_SHORT);
    ranges_from(0, 7);
    RAW(S("\x01" NINE "\x02"), little(5, 1), 11, 0, REFUSED(YZ_BAD_UNSIGNED_LEB128, 0));
    ranges_from(MAX, 7);
    RAW(S("\0\0"), little(5, 0), 2, 0, BAD_SIZE(0));
    RAW(S("\0\0"), little(5, 0), 2, 0, BAD_SIZE(0));
    ranges_from(MAX, 7);
    RAW(S("\0\0"), little(5, 1), MAX, 0, END);
    ranges_from(0, 7);
    RAW(NO_BYTES, little(4, 1), 0, 0, END);
    ranges_from(0, 7);
    walk.entries = MAX - 1;
    RAW(S("\x04\x01\x02\0\0"), little(5, 4), 3, MAX, DONE, YZ_RLE_OFFSET_PAIR, 1, 2);
    RAW(S("\x04\x01\x02\0\0"), little(5, 4), 5, MAX, END);
    ranges_from(0, 7);
    walk.entries = MAX - 1;
    RAW(S("\0"), little(5, 4), 1, MAX, END);
    ranges_from(0, 7);
    walk.entries = MAX;
    RAW(S("\x04\x01\x02\0"), little(5, 4), 3, MAX, DONE, YZ_RLE_OFFSET_PAIR, 1, 2);
    ranges_from(0, 7);
    walk.entries = 7;
    RAW(S("\x08"), little(5, 4), 1, 7, REFUSED(YZ_UNKNOWN_RANGE_LISTS_ENTRY, 8));
    ranges_from(0, 7);
    walk.entries = 7;
    RAW(S("\0"), little(5, 5), 1, 7, BAD_SIZE(5));
    ranges_from(99, 7);
    walk.entries = 7;
    RAW(S("\0"), little(5, 4), 99, 7, END);
    padded_ranges();
}

static yz_range_entry range_entry(uint64_t kind, uint64_t first, uint64_t second) {
    yz_range_entry entry;
    entry.kind = kind;
    entry.first = first;
    entry.second = second;
    return entry;
}

/* Conversions between calls that read entries. */
static void ranges_converted(void) {
#define LIST S("\x05\0\x10\0\0\x04\x01\x02\x04\x03\x03\x04\x05\x06\0\xff")
#define READ_ONE(at, base_address, entries, ...)                                                                     \
    STEP(raw_range, by->next_raw(LIST, little(5, 4), &walk), at, base_address, entries, __VA_ARGS__)
#define CONVERT_ONE(kind, first, second, at, base_address, entries, ...)                                             \
    STEP(range, yz_range_convert_raw(TABLE, 8, little(5, 4), range_entry(kind, first, second), &walk), at,           \
         base_address, entries, __VA_ARGS__)
    OPENS(yz_range_open(LIST, little(5, 4), 0, 0, &walk), 0, 0, 0);
    READ_ONE(5, 0, 1, DONE, YZ_RLE_BASE_ADDRESS, 0x1000, 0);
    CONVERT_ONE(YZ_RLE_BASE_ADDRESS, 0x1000, 0, 5, 0x1000, 1, COMES_TO_NOTHING);
    READ_ONE(8, 0x1000, 2, DONE, YZ_RLE_OFFSET_PAIR, 1, 2);
    CONVERT_ONE(YZ_RLE_OFFSET_PAIR, 1, 2, 8, 0x1000, 2, DONE, 0x1001, 0x1002);
    READ_ONE(11, 0x1000, 3, DONE, YZ_RLE_OFFSET_PAIR, 3, 3);
    CONVERT_ONE(YZ_RLE_OFFSET_PAIR, 3, 3, 11, 0x1000, 3, COMES_TO_NOTHING);
    CONVERT_ONE(YZ_RLE_STARTX_LENGTH, 2, 3, 11, 0x1000, 3, CUT_SHORT);
    CONVERT_ONE(8, 3, 3, 11, 0x1000, 3, REFUSED(YZ_UNKNOWN_RANGE_LISTS_ENTRY, 8));
    NEXT(LIST, TABLE, little(5, 4), 14, 0x1000, 4, DONE, 0x1005, 0x1006);
    NEXT(LIST, TABLE, little(5, 4), 16, 0x1000, 5, END);
    CONVERT_ONE(YZ_RLE_OFFSET_PAIR, 1, 2, 16, 0x1000, 5, DONE, 0x1001, 0x1002);
    READ_ONE(16, 0x1000, 5, END);
#undef LIST
#undef READ_ONE
#undef CONVERT_ONE
    /* Entries with padded numbers come to what they come to without. */
#define LIST S("\x01\x81\0\x04\x81\0\x82\x80\0\x02\x80\0\x81\0\x03\x81\0\x85\0\x07\x05\0\0\0\x87\0\0")
#define PADDED(at, base_address, entries, ...)                                                                       \
    do {                                                                                                             \
        const yz_raw_range raw = by->next_raw(LIST, little(5, 4), &walk);                                            \
        CHECK(raw.result == YZ_DONE && raw.padded == 1);                                                             \
        STEP(range, yz_range_convert_raw(TABLE, 8, little(5, 4), raw.entry, &walk), at, base_address, entries,       \
             __VA_ARGS__);                                                                                           \
    } while (0)
    ranges_from(0, 0x100);
    PADDED(3, 0x20, 1, COMES_TO_NOTHING);
    PADDED(9, 0x20, 2, DONE, 0x21, 0x22);
    PADDED(14, 0x20, 3, DONE, 0x10, 0x20);
    PADDED(19, 0x20, 4, DONE, 0x20, 0x25);
    PADDED(26, 0x20, 5, DONE, 5, 12);
    ranges_from(0, 0x100);
    NEXT(LIST, TABLE, little(5, 4), 9, 0x20, 2, DONE, 0x21, 0x22);
    NEXT(LIST, TABLE, little(5, 4), 14, 0x20, 3, DONE, 0x10, 0x20);
    NEXT(LIST, TABLE, little(5, 4), 19, 0x20, 4, DONE, 0x20, 0x25);
    NEXT(LIST, TABLE, little(5, 4), 26, 0x20, 5, DONE, 5, 12);
    NEXT(LIST, TABLE, little(5, 4), 27, 0x20, 6, END);
#undef LIST
#undef PADDED
}

/* What an entry comes to on a walk with base address 0x100; the walk's base address then. */
#define CONVERT(table, encoding, kind, first, second, base_address, ...)                                             \
    do {                                                                                                             \
        ranges_from(5, 0x100);                                                                                       \
        walk.entries = 6;                                                                                            \
        STEP(range, yz_range_convert_raw(table, 8, encoding, range_entry(kind, first, second), &walk), 5,            \
             base_address, 6, __VA_ARGS__);                                                                          \
    } while (0)

static void test_range_convert_raw(void) {
    CONVERT(TABLE, little(5, 4), YZ_RLE_ADDRESS_OR_OFFSET_PAIR, 1, 2, 0x100, DONE, 0x101, 0x102);
    CONVERT(TABLE, little(5, 4), YZ_RLE_BASE_ADDRESSX, 1, MAX, 0x20, COMES_TO_NOTHING);
    CONVERT(BIG_TABLE, big(5, 4), YZ_RLE_STARTX_ENDX, 0, 1, 0x100, DONE, 0x10, 0x20);
    CONVERT(TABLE, little(5, 4), YZ_RLE_STARTX_LENGTH, 1, 5, 0x100, DONE, 0x20, 0x25);
    CONVERT(TABLE, little(5, 4), YZ_RLE_OFFSET_PAIR, 2, 2, 0x100, COMES_TO_NOTHING);
    CONVERT(TABLE, little(5, 4), YZ_RLE_BASE_ADDRESS, 0x200, 0, 0x200, COMES_TO_NOTHING);
    CONVERT(TABLE, little(5, 4), YZ_RLE_START_END, 5, 7, 0x100, DONE, 5, 7);
    CONVERT(TABLE, little(5, 4), YZ_RLE_START_LENGTH, 5, 7, 0x100, DONE, 5, 12);
    CONVERT(TABLE, little(5, 4), 8, 5, 7, 0x100, REFUSED(YZ_UNKNOWN_RANGE_LISTS_ENTRY, 8));
    CONVERT(TABLE, little(5, 4), MAX, 5, 7, 0x100, REFUSED(YZ_UNKNOWN_RANGE_LISTS_ENTRY, MAX));
    CONVERT(TABLE, little(5, 5), MAX, 5, 7, 0x100, BAD_SIZE(5));
    CONVERT(TABLE, little(5, 5), YZ_RLE_START_END, 5, 7, 0x100, BAD_SIZE(5));
    CONVERT(TABLE, little(5, 4), YZ_RLE_BASE_ADDRESSX, 2, 0, 0x100, CUT_SHORT);
    CONVERT(TABLE, little(5, 4), YZ_RLE_STARTX_ENDX, 0, MAX, 0x100, TOO_FAR);
    CONVERT(NO_BYTES, little(5, 4), YZ_RLE_BASE_ADDRESSX, 0, 0, 0x100, CUT_SHORT);
    CONVERT(TABLE_3, little(5, 3), YZ_RLE_ADDRESS_OR_OFFSET_PAIR, 0xffff00, 0xffff10, 0x100, DONE, 0, 0x10);
    CONVERT(TABLE_3, little(5, 3), YZ_RLE_BASE_ADDRESSX, 1, 0, 0x20, COMES_TO_NOTHING);
    CONVERT(BIG_TABLE_3, big(5, 3), YZ_RLE_STARTX_ENDX, 0, 1, 0x100, DONE, 0x10, 0x20);
    CONVERT(S("12345678\x01\x02\x03\x04\x05\x06"), little(5, 3), YZ_RLE_STARTX_ENDX, 0, 1, 0x100, DONE, 0x030201, 0x060504);
    CONVERT(TABLE_3, little(5, 3), YZ_RLE_STARTX_LENGTH, 1, 0xffffdf, 0x100, DONE, 0x20, 0xffffff);
    CONVERT(TABLE_3, little(5, 3), YZ_RLE_STARTX_LENGTH, 1, 0xffffe0, 0x100, COMES_TO_NOTHING);
    CONVERT(TABLE_3, little(5, 3), YZ_RLE_OFFSET_PAIR, 0xffff00, 0xffff10, 0x100, DONE, 0, 0x10);
    CONVERT(TABLE_3, little(5, 3), YZ_RLE_START_END, 0xfffffd, 0xffffff, 0x100, DONE, 0xfffffd, 0xffffff);
    CONVERT(TABLE_3, little(5, 3), YZ_RLE_START_END, 0xfffffe, 0xffffff, 0x100, COMES_TO_NOTHING);
    CONVERT(TABLE_3, little(5, 3), YZ_RLE_START_LENGTH, 0xfffff0, 0x0f, 0x100, DONE, 0xfffff0, 0xffffff);
    CONVERT(TABLE_3, little(5, 3), YZ_RLE_START_LENGTH, 0xfffff0, 0x10, 0x100, COMES_TO_NOTHING);
    CONVERT(TABLE_3, little(5, 3), YZ_RLE_BASE_ADDRESSX, 2, 0, 0x100, CUT_SHORT);
    CONVERT(TABLE_3, little(5, 3), YZ_RLE_STARTX_ENDX, 0, THIRD, 0x100, CUT_SHORT);
    CONVERT(TABLE_3, little(5, 3), YZ_RLE_STARTX_ENDX, 0, THIRD + 1, 0x100, TOO_FAR);
    ranges_converted();
}

#define LOOKUP(list, encoding, offset, address, ...)                                                                 \
    IS(range, by->lookup(list, TABLE, 8, encoding, offset, 0x40, address), __VA_ARGS__)

static void test_range_lookup(void) {
#define LIST S("\x07\x10\0\0\0\x08\x03\x01\x08\x04\x02\x03\x08")
    LOOKUP(LIST, little(5, 4), 0, 0x10, DONE, 0x10, 0x18);
    LOOKUP(LIST, little(5, 4), 0, 0x27, DONE, 0x20, 0x28);
    LOOKUP(LIST, little(5, 4), 9, 0x42, DONE, 0x42, 0x43);
    LOOKUP(LIST, little(5, 4), 0, 0x18, REFUSED(YZ_UNKNOWN_RANGE_LISTS_ENTRY, 8));
    LOOKUP(LIST, little(5, 4), MAX, 0x10, CUT_SHORT);
    LOOKUP(LIST, little(5, 9), MAX, 0x10, BAD_SIZE(9));
#undef LIST
    LOOKUP(S("\x07\x10\0\0\0\x08\0"), little(5, 4), 0, 0x18, NOT_THERE);
    LOOKUP(S("\x07\x10\0\0\0\x08\0"), little(5, 4), 0, MAX, NOT_THERE);
    LOOKUP(NO_BYTES, little(5, 4), 0, 0, NOT_THERE);
    LOOKUP(NO_BYTES, little(5, 4), 1, 0, CUT_SHORT);
    IS(range, by->lookup(S("\x01\x03\0\0"), NO_BYTES, 0, big(4, 1), 0, 0x40, 0x42), DONE, 0x41, 0x43);
#define LIST S("\x07\x01\x02\x03\x08\x04\x02\x03\x06\x10\0")
    LOOKUP(LIST, little(5, 3), 0, 0x030208, DONE, 0x030201, 0x030209);
    LOOKUP(LIST, big(5, 3), 0, 0x01020a, DONE, 0x010203, 0x01020b);
    LOOKUP(LIST, little(5, 3), 0, 0x42, DONE, 0x42, 0x43);
    LOOKUP(LIST, little(5, 3), 0, 0x030209, CUT_SHORT);
#undef LIST
    LOOKUP(S("\x07\xf0\xff\xff\x10\0"), little(5, 3), 0, 0xfffff0, NOT_THERE);
    LOOKUP(NO_BYTES, little(5, 3), 1, 0, CUT_SHORT);
    IS(range, by->lookup(S("\x03\x01\x08\0"), TABLE_3, 8, little(5, 3), 0, 0, 0x27), DONE, 0x20, 0x28);
}

/* ---- Location lists. Any word but 0 makes a walk one of a split list. ---- */

#define LNEXT(list, table, encoding, at, base_address, entries, ...)                                                 \
    STEP(location, yz_location_next(list, table, 8, encoding, &walk), at, base_address, entries, __VA_ARGS__)

/* Addresses of three bytes. */
static void locations_of_three(void) {
    walk_from(0, 0, 0);
#define LIST S("\x07\x01\x02\x03\x04\x05\x06\x01\x50\x08\xf0\xff\xff\x0f\x01\x51\x08\xf0\xff\xff\x10\0\0")
    LNEXT(LIST, TABLE_3, little(5, 3), 9, 0, 1, DONE, 0x030201, 0x060504, 8, 1);
    LNEXT(LIST, TABLE_3, little(5, 3), 16, 0, 2, DONE, 0xfffff0, 0xffffff, 15, 1);
    LNEXT(LIST, TABLE_3, little(5, 3), 23, 0, 4, END);
#undef LIST
    walk_from(0, 0, 0);
    LNEXT(S("\x07\x01\x02\x03\x04\x05\x06\0"), BIG_TABLE_3, big(5, 3), 8, 0, 1, DONE, 0x010203, 0x040506, 8, 0);
    walk_from(0, 0, 0);
    LNEXT(S("\x05\x01\x50\0"), TABLE_3, little(5, 3), 3, 0, 1, DONE, 0, MAX, 2, 1);
    walk_from(0, 0xfffffd, 0);
    LNEXT(S("\x04\0\x01\0\0"), TABLE_3, little(5, 3), 4, 0xfffffd, 1, DONE, 0xfffffd, 0xfffffe, 4, 0);
    walk_from(0, 0xfffffe, 0);
    LNEXT(S("\x04\0\x01\0\0"), TABLE_3, little(5, 3), 5, 0xfffffe, 2, END);
    walk_from(0, 0, 0);
#define LIST S("\xff\xff\xff\x10\x20\x30\x01\0\0\x03\0\0\x02\0\x50\x51\0\0\0\0\0\0")
    LNEXT(LIST, TABLE_3, little(4, 3), 16, 0x302010, 2, DONE, 0x302011, 0x302013, 14, 2);
    LNEXT(LIST, TABLE_3, little(4, 3), 22, 0x302010, 3, END);
#undef LIST
    walk_from(0, 0, 1);
#define LIST S("\x03\x01\x08\0\0\0\x01\0\x50\x06\x10\x20\x30\x04\x01\x02\0\0\0")
    LNEXT(LIST, TABLE_3, little(4, 3), 9, 0, 1, DONE, 0x20, 0x28, 8, 1);
    LNEXT(LIST, TABLE_3, little(4, 3), 18, 0x302010, 3, DONE, 0x302011, 0x302012, 18, 0);
    LNEXT(LIST, TABLE_3, little(4, 3), 19, 0x302010, 4, END);
#undef LIST
    walk_from(0, 0, 1);
    LNEXT(S("\x03\x01\0\0\0\x08\0\x01\x50\0"), BIG_TABLE_3, big(4, 3), 9, 0, 1, DONE, 0x20, 0x28, 8, 1);
    walk_from(0, 0, 0);
    LNEXT(S("\x02\0\x02\0\x02\0\x01\0\0"), TABLE_3, little(5, 3), 4, 0, 1, CUT_SHORT);
    LNEXT(S("\x02\0\x02\0\x02\0\x01\0\0"), TABLE_3, little(5, 3), 8, 0, 2, DONE, 0x10, 0x20, 8, 0);
    walk_from(0, 7, 0);
    LNEXT(S("\x07\x10\0"), TABLE_3, little(5, 3), 3, 7, 0, CUT_SHORT);
    walk_from(0, 7, 0);
    LNEXT(S("\x03" INDEX_PAST_THIRD "\0\0\0"), TABLE_3, little(5, 3), 12, 7, 1, TOO_FAR);
}

/* Entries that count, and those that don't; counts that are handed in. */
static void locations_counted(void) {
    walk_from(0, 0, 0);
    LNEXT(S("\0"), TABLE, little(5, 4), 1, 0, 1, END);
    LNEXT(S("\0"), TABLE, little(5, 4), 1, 0, 1, END);
    walk_from(0, 0, 0);
    LNEXT(S("\x07\x10\0\0\0\x20\0\0\0\x01\x50"), TABLE, little(5, 4), 11, 0, 1, DONE, 0x10, 0x20, 10, 1);
    LNEXT(S("\x07\x10\0\0\0\x20\0\0\0\x01\x50"), TABLE, little(5, 4), 11, 0, 1, END);
    walk_from(0, 0, 0);
#define LIST S("\x06\0\x10\0\0\x04\x01\x02\0\x04\x03\x03\0\x04\x05\x06\0\0\xff")
    LNEXT(LIST, TABLE, little(5, 4), 9, 0x1000, 2, DONE, 0x1001, 0x1002, 9, 0);
    LNEXT(LIST, TABLE, little(5, 4), 17, 0x1000, 4, DONE, 0x1005, 0x1006, 17, 0);
    LNEXT(LIST, TABLE, little(5, 4), 19, 0x1000, 5, END);
    LNEXT(LIST, TABLE, little(5, 4), 19, 0x1000, 5, END);
    walk_from(0, 0, 0);
    walk.entries = MAX - 1;
    LNEXT(LIST, TABLE, little(5, 4), 9, 0x1000, MAX, DONE, 0x1001, 0x1002, 9, 0);
    LNEXT(LIST, TABLE, little(5, 4), 17, 0x1000, MAX, DONE, 0x1005, 0x1006, 17, 0);
    LNEXT(LIST, TABLE, little(5, 4), 19, 0x1000, MAX, END);
#undef LIST
    walk_from(0, 0, OLD_WORD);
#define LIST S("\x06\0\x10\0\0\x04\x01\x02\0\0\x04\x03\x03\0\0\x04\x05\x06\0\0\0\xff")
    LNEXT(LIST, TABLE, little(4, 4), 10, 0x1000, 2, DONE, 0x1001, 0x1002, 10, 0);
    LNEXT(LIST, TABLE, little(4, 4), 20, 0x1000, 4, DONE, 0x1005, 0x1006, 20, 0);
    LNEXT(LIST, TABLE, little(4, 4), 22, 0x1000, 5, END);
    LNEXT(LIST, TABLE, little(4, 4), 22, 0x1000, 5, END);
    walk_from(0, 0, 1);
    walk.entries = MAX;
    LNEXT(LIST, TABLE, little(4, 4), 10, 0x1000, MAX, DONE, 0x1001, 0x1002, 10, 0);
#undef LIST
    walk_from(0, 0, 0);
#define LIST S("\xff\x20\x03\x03\0\0\x01\x03\x02\0\x50\x51\0\0\x07")
    walk.entries = 7;
    LNEXT(LIST, TABLE, little(4, 1), 12, 0x20, 10, DONE, 0x21, 0x23, 10, 2);
    LNEXT(LIST, TABLE, little(4, 1), 15, 0x20, 11, END);
#undef LIST
    /* Refused lookups. */
    walk_from(0, 0, 0);
    LNEXT(S("\x02\0\x02\0\x03\0\x08\0\0"), TABLE, little(5, 4), 4, 0, 1, CUT_SHORT);
    LNEXT(S("\x02\0\x02\0\x03\0\x08\0\0"), TABLE, little(5, 4), 8, 0, 2, DONE, 0x10, 0x18, 8, 0);
    LNEXT(S("\x02\0\x02\0\x03\0\x08\0\0"), TABLE, little(5, 4), 9, 0, 3, END);
    walk_from(0, 0, 1);
#define LIST S("\x03\x02\x08\0\0\0\0\0\x03\0\x08\0\0\0\x01\0\x50\0")
    LNEXT(LIST, TABLE, little(4, 4), 8, 0, 1, CUT_SHORT);
    LNEXT(LIST, TABLE, little(4, 4), 17, 0, 2, DONE, 0x10, 0x18, 16, 1);
    LNEXT(LIST, TABLE, little(4, 4), 18, 0, 3, END);
#undef LIST
    /* Refused entries, and a refused size. */
    walk_from(0, 0, 0);
    LNEXT(S("\x08\x10\0\0\0\x01\0\x09"), TABLE, little(5, 4), 7, 0, 1, DONE, 0x10, 0x11, 7, 0);
    LNEXT(S("\x08\x10\0\0\0\x01\0\x09"), TABLE, little(5, 4), 8, 0, 1, REFUSED(YZ_UNKNOWN_LOC_LISTS_ENTRY, 9));
    LNEXT(S("\x08\x10\0\0\0\x01\0\x09"), TABLE, little(5, 4), 8, 0, 1, END);
    walk_from(0, 7, 1);
    LNEXT(S("\x09"), TABLE, little(4, 4), 1, 7, 0, REFUSED(YZ_UNKNOWN_LOC_LISTS_ENTRY, 9));
    walk_from(0, 7, 1);
    walk.entries = 7;
    LNEXT(S("\x05\x02\0\x50"), TABLE, little(4, 4), 4, 7, 7, CUT_SHORT);
    walk_from(0, 7, 1);
    walk.entries = 7;
    LNEXT(S("\0"), TABLE, little(4, 5), 1, 7, 7, BAD_SIZE(5));
    LNEXT(S("\0"), TABLE, little(4, 5), 1, 7, 7, BAD_SIZE(5));
    walk_from(99, 7, 1);
    walk.entries = 7;
    LNEXT(S("\0"), TABLE, little(5, 4), 99, 7, 7, END);
}

static void test_location_next(void) {
    walk_from(0, 0, 0);
    LNEXT(S("\x05\x01\x50\0"), TABLE, little(5, 4), 3, 0, 1, DONE, 0, MAX, 2, 1);
    LNEXT(S("\x05\x01\x50\0"), TABLE, little(5, 4), 4, 0, 2, END);
    walk_from(0, 0, 1);
#define LIST S("\x03\0\x08\0\0\0\x01\0\x50\0")
    LNEXT(LIST, TABLE, little(4, 4), 9, 0, 1, DONE, 0x10, 0x18, 8, 1);
    LNEXT(LIST, TABLE, little(4, 4), 10, 0, 2, END);
    walk_from(0, 0, MAX);
    LNEXT(LIST, TABLE, little(4, 4), 9, 0, 1, DONE, 0x10, 0x18, 8, 1);
    walk_from(0, 0, UINT64_C(1) << 32);
    LNEXT(LIST, TABLE, little(4, 4), 9, 0, 1, DONE, 0x10, 0x18, 8, 1);
    walk_from(0, 0, 0);
    LNEXT(LIST, TABLE, little(4, 4), 10, 0, 0, CUT_SHORT);
#undef LIST
    walk_from(0, 0, 1);
    LNEXT(S("\x04\0\x01\x01\0\x50\0"), TABLE, little(4, 4), 6, 0, 1, DONE, 0, 1, 5, 1);
    walk_from(0, 0, 0);
#define LIST S("\x03\x02\x08\0\x02\0\x01\x02\x50\x51\0\0\0")
    LNEXT(LIST, TABLE, little(5, 4), 4, 0, 1, CUT_SHORT);
    LNEXT(LIST, TABLE, little(5, 4), 10, 0, 2, DONE, 0x10, 0x20, 8, 2);
    LNEXT(LIST, TABLE, little(5, 4), 13, 0, 3, END);
#undef LIST
    walk_from(0, 0, 0);
    LNEXT(S("\xff\x20\x01\x03\x02\0\x50\x51\0\0"), TABLE, little(4, 1), 8, 0x20, 2, DONE, 0x21, 0x23, 6, 2);
    walk_from(0, 0, 0);
    LNEXT(S("\x01\x01\x04\0\x05\0\0"), BIG_TABLE, encoded(5, 4, true, BIG), 6, 0x20, 2, DONE, 0x20, 0x25, 6, 0);
    walk_from(0, 7, 0);
    LNEXT(S("\x09\0"), TABLE, little(5, 4), 2, 7, 0, REFUSED(YZ_UNKNOWN_LOC_LISTS_ENTRY, 9));
    walk_from(0, 7, 0);
    LNEXT(S("\x04\0\x01\x02\x50"), TABLE, little(5, 4), 5, 7, 0, CUT_SHORT);
    walk_from(0, 7, 0);
    LNEXT(S("\x05" NINE "\x01"), TABLE, little(5, 4), 11, 7, 0, CUT_SHORT);
    walk_from(0, 7, 0);
    LNEXT(S("\x05" NINE "\x02"), TABLE, little(5, 4), 11, 7, 0, REFUSED(YZ_BAD_UNSIGNED_LEB128, 0));
    walk_from(0, 7, 0);
    LNEXT(S("\x03" INDEX_2_61 "\0\0\0"), TABLE, little(5, 8), 12, 7, 1, TOO_FAR);
    walk_from(0, 7, 0);
    LNEXT(S("\0"), TABLE, little(5, 6), 1, 7, 0, BAD_SIZE(6));
    LNEXT(S("\0"), TABLE, little(5, 6), 1, 7, 0, BAD_SIZE(6));
    walk_from(MAX, 7, 0);
    LNEXT(S("\x05\0"), TABLE, little(5, 4), MAX, 7, 0, END);
    walk_from(0, 7, 0);
    LNEXT(NO_BYTES, NO_BYTES, little(5, 4), 0, 7, 0, END);
    locations_of_three();
    locations_counted();
}

#define LRAW(list, encoding, at, entries, ...)                                                                       \
    STEP(raw_location, yz_location_next_raw(list, encoding, &walk), at, 7, entries, __VA_ARGS__)

static void padded_locations(void) {
#define LIST S("\x05\x81\0\x50\0")
    walk_from(0, 7, 0);
    LRAW(LIST, little(5, 4), 4, 1, DONE, YZ_LLE_DEFAULT_LOCATION, 0, 0, 3, 1, 1);
    LRAW(LIST, little(5, 4), 5, 2, END);
    LRAW(LIST, little(5, 4), 5, 2, END);
#undef LIST
    walk_from(0, 7, 0);
    LRAW(S("\x05\x01\x50\0"), little(5, 4), 3, 1, DONE, YZ_LLE_DEFAULT_LOCATION, 0, 0, 2, 1, 0);
    /* The length of kind 3, and in version 4 four bytes for it and two for an expression's. */
    walk_from(0, 7, 0);
    LRAW(S("\x03\0\x88\0\x01\x50\0"), little(5, 4), 6, 1, DONE, YZ_LLE_STARTX_LENGTH, 0, 8, 5, 1, 1);
    walk_from(0, 7, 1);
    LRAW(S("\x03\0\x88\0\x01\x50\0"), little(5, 4), 6, 1, DONE, YZ_LLE_STARTX_LENGTH, 0, 8, 5, 1, 1);
    walk_from(0, 7, 1);
    LRAW(S("\x03\0\x08\0\0\0\x01\0\x50\0"), little(4, 4), 9, 1, DONE, YZ_LLE_STARTX_LENGTH, 0, 8, 8, 1, 0);
    walk_from(0, 7, 1);
    LRAW(S("\x03\x80\0\x08\0\0\0\x01\0\x50\0"), little(4, 4), 10, 1, DONE, YZ_LLE_STARTX_LENGTH, 0, 8, 9, 1, 1);
    walk_from(0, 7, 1);
    LRAW(S("\x03\0\x80\0\0\0\0\0"), little(4, 4), 8, 1, DONE, YZ_LLE_STARTX_LENGTH, 0, 0x80, 8, 0, 0);
    walk_from(0, 7, 1);
    LRAW(S("\x03\0\x80\0\0\0\0\0"), big(4, 4), 8, 1, DONE, YZ_LLE_STARTX_LENGTH, 0, 0x80000000, 8, 0, 0);
    walk_from(0, 7, 1);
    LRAW(S("\x04\x81\0\x82\0\x01\0\x50\0"), little(4, 4), 8, 1, DONE, YZ_LLE_OFFSET_PAIR, 1, 2, 7, 1, 1);
    walk_from(0, 7, 1);
    LRAW(S("\x08\x10\x81\0\0\0"), little(4, 1), 6, 1, DONE, YZ_LLE_START_LENGTH, 0x10, 1, 6, 0, 1);
    walk_from(0, 7, 0);
    LRAW(S("\x80\0\x81\0\0\0"), little(4, 2), 6, 1, DONE, YZ_LLE_ADDRESS_OR_OFFSET_PAIR, 0x80, 0x81, 6, 0, 0);
    /* Refused, and at the end, whatever was read before. */
    walk_from(0, 7, 0);
    LRAW(S("\x05\x82\0\x50"), little(5, 4), 4, 0, CUT_SHORT);
    walk_from(0, 7, 1);
    LRAW(S("\x02\x80\0\x80\0\x01"), little(4, 4), 6, 0, CUT_SHORT);
    walk_from(0, 7, 0);
    LRAW(S("\x02\x80\0\x80\0" NINE "\x02"), little(5, 4), 15, 0, REFUSED(YZ_BAD_UNSIGNED_LEB128, 0));
    walk_from(0, 7, 1);
    LRAW(S("\x01\x80\0"), little(4, 5), 3, 0, BAD_SIZE(5));
    walk_from(MAX, 7, 0);
    LRAW(S("\x01\x80\0"), little(5, 4), MAX, 0, END);
    /* Each entry by its own numbers. */
#define LIST S("\x05\x80\0\x05\0\x01\x80\0\x06\x80\x08\x10\x81\0\0\x04\0\x01\x80\0\x09\x80\0")
    walk_from(0, 7, 0);
    LRAW(LIST, little(5, 1), 3, 1, DONE, YZ_LLE_DEFAULT_LOCATION, 0, 0, 3, 0, 1);
    LRAW(LIST, little(5, 1), 5, 2, DONE, YZ_LLE_DEFAULT_LOCATION, 0, 0, 5, 0, 0);
    LRAW(LIST, little(5, 1), 8, 3, DONE, YZ_LLE_BASE_ADDRESSX, 0, 0, 0, 0, 1);
    LRAW(LIST, little(5, 1), 10, 4, DONE, YZ_LLE_BASE_ADDRESS, 0x80, 0, 0, 0, 0);
    LRAW(LIST, little(5, 1), 15, 5, DONE, YZ_LLE_START_LENGTH, 0x10, 1, 15, 0, 1);
    LRAW(LIST, little(5, 1), 20, 6, DONE, YZ_LLE_OFFSET_PAIR, 0, 1, 20, 0, 1);
    LRAW(LIST, little(5, 1), 23, 6, REFUSED(YZ_UNKNOWN_LOC_LISTS_ENTRY, 9));
    LRAW(LIST, little(5, 1), 23, 6, END);
#undef LIST
    entries_padded(true, 0, 2);
    entries_padded(true, 0, 4);
    entries_padded(true, 0, 5);
    entries_padded(true, 0, 6);
    entries_padded(true, 1, 2);
    entries_padded(true, 1, 4);
    entries_padded(true, 1, 5);
    entries_padded(true, OLD_WORD, 6);
}

static void test_location_next_raw(void) {
    walk_from(0, 7, 0);
#define LIST                                                                                                         \
    S("\x01\x09\x02\x08\x07\0\x03\x06\x05\x01\x50\x04\x04\x05\0\x05\x02\x51\x52\x06\x33\x07\x02\x03\0\x08\x01\x02\0\0\x09")
    LRAW(LIST, little(5, 1), 2, 1, DONE, YZ_LLE_BASE_ADDRESSX, 9, 0, 0, 0);
    LRAW(LIST, little(5, 1), 6, 2, DONE, YZ_LLE_STARTX_ENDX, 8, 7, 6, 0);
    LRAW(LIST, little(5, 1), 11, 3, DONE, YZ_LLE_STARTX_LENGTH, 6, 5, 10, 1);
    LRAW(LIST, little(5, 1), 15, 4, DONE, YZ_LLE_OFFSET_PAIR, 4, 5, 15, 0);
    LRAW(LIST, little(5, 1), 19, 5, DONE, YZ_LLE_DEFAULT_LOCATION, 0, 0, 17, 2);
    LRAW(LIST, little(5, 1), 21, 6, DONE, YZ_LLE_BASE_ADDRESS, 0x33, 0, 0, 0);
    LRAW(LIST, little(5, 1), 25, 7, DONE, YZ_LLE_START_END, 2, 3, 25, 0);
    LRAW(LIST, little(5, 1), 29, 8, DONE, YZ_LLE_START_LENGTH, 1, 2, 29, 0);
    LRAW(LIST, little(5, 1), 31, 9, END);
#undef LIST
#define LIST S("\x03\x01\x02\0\0\0\x01\0\x50\0")
    walk_from(0, 7, 1);
    LRAW(LIST, little(4, 1), 9, 1, DONE, YZ_LLE_STARTX_LENGTH, 1, 2, 8, 1);
    walk_from(0, 7, OLD_WORD);
    LRAW(LIST, little(4, 1), 9, 1, DONE, YZ_LLE_STARTX_LENGTH, 1, 2, 8, 1);
#undef LIST
    walk_from(0, 7, 0);
    LRAW(S("\x03\x05\x01\0\x50"), little(4, 1), 5, 1, DONE, YZ_LLE_ADDRESS_OR_OFFSET_PAIR, 3, 5, 4, 1);
    walk_from(0, 7, 0);
#define LIST S("\x06\x01\x02\x03\x07\x01\x02\x03\x04\x05\x06\0\x08\x01\x02\x03\x02\x01\x50\0")
    LRAW(LIST, big(5, 3), 4, 1, DONE, YZ_LLE_BASE_ADDRESS, 0x010203, 0, 0, 0);
    LRAW(LIST, big(5, 3), 12, 2, DONE, YZ_LLE_START_END, 0x010203, 0x040506, 12, 0);
    LRAW(LIST, big(5, 3), 19, 3, DONE, YZ_LLE_START_LENGTH, 0x010203, 2, 18, 1);
    LRAW(LIST, big(5, 3), 20, 4, END);
#undef LIST
    walk_from(0, 7, 1);
    LRAW(S("\x08\x01\x02\x03\x02\x01\0\x50"), little(4, 3), 8, 1, DONE, YZ_LLE_START_LENGTH, 0x030201, 2, 7, 1);
    walk_from(0, 7, 0);
#define LIST S("\xff\xff\xff\x01\x02\x03\x04\x05\x06\x07\x08\x09\x01\0\x50\0\0\0\0\0")
    LRAW(LIST, little(4, 3), 6, 1, DONE, YZ_LLE_BASE_ADDRESS, 0x030201, 0, 0, 0);
    LRAW(LIST, little(4, 3), 15, 2, DONE, YZ_LLE_ADDRESS_OR_OFFSET_PAIR, 0x060504, 0x090807, 14, 1);
    LRAW(LIST, little(4, 3), 20, 2, CUT_SHORT);
#undef LIST
    walk_from(0, 7, 0);
    LRAW(S("\x03\x05\x01"), little(4, 1), 3, 0, CUT_SHORT);
    walk_from(0, 7, 0);
    LRAW(S("\x09"), little(5, 1), 1, 0, REFUSED(YZ_UNKNOWN_LOC_LISTS_ENTRY, 9));
    walk_from(0, 7, 0);
    LRAW(S("\x01" NINE "\x02"), little(5, 1), 11, 0, REFUSED(YZ_BAD_UNSIGNED_LEB128, 0));
    walk_from(MAX, 7, 0);
    LRAW(S("\x09"), little(5, 5), 1, 0, BAD_SIZE(5));
    LRAW(S("\x09"), little(5, 5), 1, 0, BAD_SIZE(5));
    walk_from(MAX, 7, 0);
    LRAW(S("\x09"), little(5, 1), MAX, 0, END);
    walk_from(0, 7, 1);
    LRAW(NO_BYTES, little(4, 1), 0, 0, END);
    walk_from(0, 7, 1);
    walk.entries = MAX - 1;
    LRAW(S("\x05\x01\0\x50\0\0"), little(4, 4), 4, MAX, DONE, YZ_LLE_DEFAULT_LOCATION, 0, 0, 3, 1);
    LRAW(S("\x05\x01\0\x50\0\0"), little(4, 4), 6, MAX, END);
    walk_from(0, 7, 0);
    walk.entries = MAX - 1;
    LRAW(S("\0"), little(5, 4), 1, MAX, END);
    walk_from(0, 7, 0);
    walk.entries = MAX;
    LRAW(S("\x05\x01\x50\0"), little(5, 4), 3, MAX, DONE, YZ_LLE_DEFAULT_LOCATION, 0, 0, 2, 1);
    walk_from(0, 7, 0);
    walk.entries = 7;
    LRAW(S("\x09"), little(5, 4), 1, 7, REFUSED(YZ_UNKNOWN_LOC_LISTS_ENTRY, 9));
    walk_from(0, 7, 1);
    walk.entries = 7;
    LRAW(S("\0"), little(4, 5), 1, 7, BAD_SIZE(5));
    walk_from(99, 7, 0);
    walk.entries = 7;
    LRAW(S("\0"), little(5, 4), 99, 7, END);
    padded_locations();
}

static yz_location_entry location_entry(uint64_t kind, uint64_t first, uint64_t second, uint64_t offset, uint64_t length) {
    yz_location_entry entry;
    entry.kind = kind;
    entry.first = first;
    entry.second = second;
    entry.expression = part(offset, length);
    return entry;
}

/* The same with the expression at 3 of length 4. */
static yz_location_entry entry(uint64_t kind, uint64_t first, uint64_t second) {
    return location_entry(kind, first, second, 3, 4);
}

#define LCONVERT(table, encoding, entry, base_address, ...)                                                          \
    do {                                                                                                             \
        walk_from(5, 0x100, OLD_WORD);                                                                               \
        walk.entries = 6;                                                                                            \
        STEP(location, yz_location_convert_raw(table, 8, encoding, entry, &walk), 5, base_address, 6, __VA_ARGS__);  \
    } while (0)

static void test_location_convert_raw(void) {
    LCONVERT(TABLE, little(5, 4), entry(YZ_LLE_ADDRESS_OR_OFFSET_PAIR, 1, 2), 0x100, DONE, 0x101, 0x102, 3, 4);
    LCONVERT(TABLE, little(5, 4), entry(YZ_LLE_BASE_ADDRESSX, 1, 0), 0x20, COMES_TO_NOTHING);
    LCONVERT(BIG_TABLE, big(5, 4), entry(YZ_LLE_STARTX_ENDX, 0, 1), 0x100, DONE, 0x10, 0x20, 3, 4);
    LCONVERT(TABLE, little(5, 4), entry(YZ_LLE_STARTX_LENGTH, 1, 5), 0x100, DONE, 0x20, 0x25, 3, 4);
    LCONVERT(TABLE, little(5, 4), entry(YZ_LLE_OFFSET_PAIR, 3, 2), 0x100, COMES_TO_NOTHING);
    LCONVERT(TABLE, little(5, 4), entry(YZ_LLE_DEFAULT_LOCATION, 9, 9), 0x100, DONE, 0, MAX, 3, 4);
    LCONVERT(TABLE, little(5, 4), entry(YZ_LLE_BASE_ADDRESS, 0x200, 9), 0x200, COMES_TO_NOTHING);
    LCONVERT(TABLE, little(5, 4), entry(YZ_LLE_START_END, 5, 7), 0x100, DONE, 5, 7, 3, 4);
    LCONVERT(TABLE, little(5, 4), entry(YZ_LLE_START_LENGTH, 5, 7), 0x100, DONE, 5, 12, 3, 4);
    LCONVERT(TABLE, little(5, 4), location_entry(YZ_LLE_START_END, 5, 7, MAX, MAX), 0x100, DONE, 5, 7, MAX, MAX);
    LCONVERT(TABLE, little(5, 4), entry(9, 5, 7), 0x100, REFUSED(YZ_UNKNOWN_LOC_LISTS_ENTRY, 9));
    LCONVERT(TABLE, little(5, 4), entry(MAX, 5, 7), 0x100, REFUSED(YZ_UNKNOWN_LOC_LISTS_ENTRY, MAX));
    LCONVERT(TABLE, little(5, 16), entry(MAX, 5, 7), 0x100, BAD_SIZE(16));
    LCONVERT(TABLE, little(5, 16), entry(YZ_LLE_START_END, 5, 7), 0x100, BAD_SIZE(16));
    LCONVERT(TABLE, little(5, 4), entry(YZ_LLE_STARTX_LENGTH, 2, 7), 0x100, CUT_SHORT);
    LCONVERT(TABLE, little(5, 4), entry(YZ_LLE_STARTX_LENGTH, MAX, 7), 0x100, TOO_FAR);
    LCONVERT(NO_BYTES, little(5, 4), entry(YZ_LLE_BASE_ADDRESSX, 0, 0), 0x100, CUT_SHORT);
    LCONVERT(TABLE_3, little(5, 3), entry(YZ_LLE_ADDRESS_OR_OFFSET_PAIR, 0xffff00, 0xffff10), 0x100, DONE, 0, 0x10, 3, 4);
    LCONVERT(TABLE_3, little(5, 3), entry(YZ_LLE_BASE_ADDRESSX, 1, 0), 0x20, COMES_TO_NOTHING);
    LCONVERT(BIG_TABLE_3, big(5, 3), entry(YZ_LLE_STARTX_ENDX, 0, 1), 0x100, DONE, 0x10, 0x20, 3, 4);
    LCONVERT(S("12345678\x01\x02\x03\x04\x05\x06"), little(5, 3), entry(YZ_LLE_STARTX_ENDX, 0, 1), 0x100, DONE, 0x030201,
             0x060504, 3, 4);
    LCONVERT(TABLE_3, little(5, 3), entry(YZ_LLE_STARTX_LENGTH, 1, 0xffffdf), 0x100, DONE, 0x20, 0xffffff, 3, 4);
    LCONVERT(TABLE_3, little(5, 3), entry(YZ_LLE_STARTX_LENGTH, 1, 0xffffe0), 0x100, COMES_TO_NOTHING);
    LCONVERT(TABLE_3, little(5, 3), entry(YZ_LLE_OFFSET_PAIR, 0xffff00, 0xffff10), 0x100, DONE, 0, 0x10, 3, 4);
    LCONVERT(TABLE_3, little(5, 3), entry(YZ_LLE_DEFAULT_LOCATION, 9, 9), 0x100, DONE, 0, MAX, 3, 4);
    LCONVERT(TABLE_3, little(5, 3), entry(YZ_LLE_START_END, 0xfffffd, 0xffffff), 0x100, DONE, 0xfffffd, 0xffffff, 3, 4);
    LCONVERT(TABLE_3, little(5, 3), entry(YZ_LLE_START_END, 0xfffffe, 0xffffff), 0x100, COMES_TO_NOTHING);
    LCONVERT(TABLE_3, little(5, 3), entry(YZ_LLE_START_LENGTH, 0xfffff0, 0x0f), 0x100, DONE, 0xfffff0, 0xffffff, 3, 4);
    LCONVERT(TABLE_3, little(5, 3), entry(YZ_LLE_START_LENGTH, 0xfffff0, 0x10), 0x100, COMES_TO_NOTHING);
    LCONVERT(TABLE_3, little(5, 3), entry(YZ_LLE_STARTX_LENGTH, THIRD, 7), 0x100, CUT_SHORT);
    LCONVERT(TABLE_3, little(5, 3), entry(YZ_LLE_STARTX_LENGTH, THIRD + 1, 7), 0x100, TOO_FAR);
    /* Between calls that read entries, of a split list. */
#define LIST S("\x06\0\x10\0\0\x04\x01\x02\0\0\x04\x03\x03\0\0\x04\x05\x06\0\0\0\xff")
#define READ_ONE(at, base_address, entries, ...)                                                                     \
    STEP(raw_location, yz_location_next_raw(LIST, little(4, 4), &walk), at, base_address, entries, __VA_ARGS__)
#define CONVERT_ONE(entry, at, base_address, entries, ...)                                                           \
    STEP(location, yz_location_convert_raw(TABLE, 8, little(4, 4), entry, &walk), at, base_address, entries,         \
         __VA_ARGS__)
    OPENS(yz_location_open(LIST, little(4, 4), DWO, 0, 0, &walk), 0, 0, 1);
    READ_ONE(5, 0, 1, DONE, YZ_LLE_BASE_ADDRESS, 0x1000, 0, 0, 0);
    CONVERT_ONE(entry(YZ_LLE_BASE_ADDRESS, 0x1000, 0), 5, 0x1000, 1, COMES_TO_NOTHING);
    READ_ONE(10, 0x1000, 2, DONE, YZ_LLE_OFFSET_PAIR, 1, 2, 10, 0);
    CONVERT_ONE(entry(YZ_LLE_OFFSET_PAIR, 1, 2), 10, 0x1000, 2, DONE, 0x1001, 0x1002, 3, 4);
    READ_ONE(15, 0x1000, 3, DONE, YZ_LLE_OFFSET_PAIR, 3, 3, 15, 0);
    CONVERT_ONE(entry(YZ_LLE_OFFSET_PAIR, 3, 3), 15, 0x1000, 3, COMES_TO_NOTHING);
    CONVERT_ONE(entry(YZ_LLE_STARTX_LENGTH, 2, 3), 15, 0x1000, 3, CUT_SHORT);
    CONVERT_ONE(entry(9, 3, 3), 15, 0x1000, 3, REFUSED(YZ_UNKNOWN_LOC_LISTS_ENTRY, 9));
    LNEXT(LIST, TABLE, little(4, 4), 20, 0x1000, 4, DONE, 0x1005, 0x1006, 20, 0);
    LNEXT(LIST, TABLE, little(4, 4), 22, 0x1000, 5, END);
    CONVERT_ONE(entry(YZ_LLE_OFFSET_PAIR, 1, 2), 22, 0x1000, 5, DONE, 0x1001, 0x1002, 3, 4);
    READ_ONE(22, 0x1000, 5, END);
#undef LIST
#undef READ_ONE
#undef CONVERT_ONE
    /* Entries with padded numbers come to what they come to without. */
#define PADDED(version, at, base_address, entries, ...)                                                              \
    do {                                                                                                             \
        const yz_raw_location raw = yz_location_next_raw(LIST, little(version, 4), &walk);                           \
        CHECK(raw.result == YZ_DONE && raw.padded == 1);                                                             \
        STEP(location, yz_location_convert_raw(TABLE, 8, little(version, 4), raw.entry, &walk), at, base_address,    \
             entries, __VA_ARGS__);                                                                                  \
    } while (0)
#define LIST                                                                                                         \
    S("\x01\x81\0\x04\x81\0\x82\x80\0\x81\0\x50\x02\x80\0\x81\0\x80\0\x03\x81\0\x85\0\x80\0\x05\x81\0\x51"           \
      "\x07\x05\0\0\0\x07\0\0\0\x80\0\x08\x05\0\0\0\x87\0\x80\0\0")
    walk_from(0, 0x100, 0);
    PADDED(5, 3, 0x20, 1, COMES_TO_NOTHING);
    PADDED(5, 12, 0x20, 2, DONE, 0x21, 0x22, 11, 1);
    PADDED(5, 19, 0x20, 3, DONE, 0x10, 0x20, 19, 0);
    PADDED(5, 26, 0x20, 4, DONE, 0x20, 0x25, 26, 0);
    PADDED(5, 30, 0x20, 5, DONE, 0, MAX, 29, 1);
    PADDED(5, 41, 0x20, 6, DONE, 5, 7, 41, 0);
    PADDED(5, 50, 0x20, 7, DONE, 5, 12, 50, 0);
    walk_from(0, 0x100, 0);
    LNEXT(LIST, TABLE, little(5, 4), 12, 0x20, 2, DONE, 0x21, 0x22, 11, 1);
    LNEXT(LIST, TABLE, little(5, 4), 19, 0x20, 3, DONE, 0x10, 0x20, 19, 0);
    LNEXT(LIST, TABLE, little(5, 4), 26, 0x20, 4, DONE, 0x20, 0x25, 26, 0);
    LNEXT(LIST, TABLE, little(5, 4), 30, 0x20, 5, DONE, 0, MAX, 29, 1);
    LNEXT(LIST, TABLE, little(5, 4), 41, 0x20, 6, DONE, 5, 7, 41, 0);
    LNEXT(LIST, TABLE, little(5, 4), 50, 0x20, 7, DONE, 5, 12, 50, 0);
    LNEXT(LIST, TABLE, little(5, 4), 51, 0x20, 8, END);
#undef LIST
#define LIST S("\x01\x81\0\x03\x81\0\x05\0\0\0\0\0\x04\x81\0\x82\x80\0\x01\0\x50\0")
    walk_from(0, 0x100, 1);
    PADDED(4, 3, 0x20, 1, COMES_TO_NOTHING);
    PADDED(4, 12, 0x20, 2, DONE, 0x20, 0x25, 12, 0);
    PADDED(4, 21, 0x20, 3, DONE, 0x21, 0x22, 20, 1);
    walk_from(0, 0x100, 1);
    LNEXT(LIST, TABLE, little(4, 4), 12, 0x20, 2, DONE, 0x20, 0x25, 12, 0);
    LNEXT(LIST, TABLE, little(4, 4), 21, 0x20, 3, DONE, 0x21, 0x22, 20, 1);
    LNEXT(LIST, TABLE, little(4, 4), 22, 0x20, 4, END);
#undef LIST
#undef PADDED
}

static bool expression_is(const uint8_t *section, size_t section_len, yz_part in, uint64_t offset, uint64_t length) {
    const yz_part lying = yz_expression(section, section_len, in);
    return lying.offset == offset && lying.length == length;
}

static void test_expression(void) {
    CHECK(expression_is(S("abcd"), part(1, 2), 1, 2));
    CHECK(expression_is(S("abcd"), part(0, 4), 0, 4));
    CHECK(expression_is(S("abcd"), part(4, 0), 4, 0));
    CHECK(expression_is(S("abcd"), part(1, 4), 0, 0));
    CHECK(expression_is(S("abcd"), part(5, 0), 0, 0));
    CHECK(expression_is(S("abcd"), part(MAX, 0), 0, 0));
    CHECK(expression_is(S("abcd"), part(2, MAX), 0, 0));
    CHECK(expression_is(S("abcd"), part(2, MAX - 1), 0, 0));
    CHECK(expression_is(S("abcd"), part(MAX, MAX), 0, 0));
    CHECK(expression_is(NO_BYTES, part(0, 0), 0, 0));
    CHECK(expression_is(NO_BYTES, part(0, 1), 0, 0));
}

#define LLOOKUP(list, encoding, file_type, offset, address, ...)                                                     \
    IS(location, yz_location_lookup(list, TABLE, 8, encoding, file_type, offset, 0x100, address), __VA_ARGS__)

/* A default location, and a code that is no kind. */
#define BY_DEFAULT(offset, length) DONE, 0, MAX, offset, length
#define NO_KIND_9 REFUSED(YZ_UNKNOWN_LOC_LISTS_ENTRY, 9)

/* A default location is found where the list has ended without a bounded entry that holds the address. */
static void default_locations(void) {
    /* First. */
#define LIST S("\x05\x01\x50\x07\x10\0\0\0\x20\0\0\0\x01\x51\0")
    LLOOKUP(LIST, little(5, 4), MAIN, 0, 0x10, DONE, 0x10, 0x20, 13, 1);
    LLOOKUP(LIST, little(5, 4), DWO, 0, 0x1f, DONE, 0x10, 0x20, 13, 1);
    LLOOKUP(LIST, little(5, 4), MAIN, 0, 0x0f, BY_DEFAULT(2, 1));
    LLOOKUP(LIST, little(5, 4), DWO, 0, 0x20, BY_DEFAULT(2, 1));
    LLOOKUP(LIST, little(5, 4), MAIN, 0, 0, BY_DEFAULT(2, 1));
    LLOOKUP(LIST, little(5, 4), MAIN, 0, UINT64_C(0x100000010), BY_DEFAULT(2, 1));
    LLOOKUP(LIST, little(5, 4), MAIN, 0, MAX - 1, BY_DEFAULT(2, 1));
    LLOOKUP(LIST, little(5, 4), MAIN, 0, MAX, NOT_THERE);
    LLOOKUP(LIST, big(5, 4), MAIN, 0, 0x10, BY_DEFAULT(2, 1));
    LLOOKUP(LIST, big(5, 4), MAIN, 0, 0x10000000, DONE, 0x10000000, 0x20000000, 13, 1);
    /* The list behind the default, the one of its end mark, and none past the section's end. */
    LLOOKUP(LIST, little(5, 4), MAIN, 3, 0x10, DONE, 0x10, 0x20, 13, 1);
    LLOOKUP(LIST, little(5, 4), MAIN, 3, 0x20, NOT_THERE);
    LLOOKUP(LIST, little(5, 4), MAIN, 14, 0x10, NOT_THERE);
    LLOOKUP(LIST, little(5, 4), MAIN, 15, 0x10, NOT_THERE);
    LLOOKUP(LIST, little(5, 4), MAIN, 16, 0x10, CUT_SHORT);
    LLOOKUP(LIST, little(5, 4), MAIN, MAX, 0x10, CUT_SHORT);
    LLOOKUP(LIST, little(5, 0), MAIN, 0, 0x10, BAD_SIZE(0));
    LLOOKUP(LIST, little(5, 6), MAIN, 16, 0x10, BAD_SIZE(6));
    LLOOKUP(LIST, big(4, 255), DWO, MAX, MAX, BAD_SIZE(255));
#undef LIST
    /* Bare pairs have none: 05 is where this one begins. */
#define LIST S("\x05\0\x08\0\x01\0\x50\0\0\0\0")
    LLOOKUP(LIST, little(4, 2), MAIN, 0, 0x107, DONE, 0x105, 0x108, 6, 1);
    LLOOKUP(LIST, little(4, 2), MAIN, 0, 0x108, NOT_THERE);
    LLOOKUP(LIST, little(4, 2), DWO, 0, 0x107, CUT_SHORT);
    LLOOKUP(LIST, little(3, 6), MAIN, 12, 0x107, BAD_SIZE(6));
#undef LIST
    /* What can't be read behind it, raw. */
    LLOOKUP(S("\x05\x01\x50\x09"), little(5, 4), MAIN, 0, 0x10, NO_KIND_9);
    LLOOKUP(S("\x05\x01\x50\x09"), little(5, 4), DWO, 0, MAX, NO_KIND_9);
    LLOOKUP(S("\x05\x01\x50\x07\x10\0\0\0"), little(5, 4), MAIN, 0, 0x10, CUT_SHORT);
    LLOOKUP(S("\x05\x01\x50\x05\x02\x51"), little(5, 4), MAIN, 0, 0x10, CUT_SHORT);
    LLOOKUP(S("\x05\x01\x50\x01" NINE "\x02\0"), little(5, 4), MAIN, 0, 0x10, REFUSED(YZ_BAD_UNSIGNED_LEB128, 0));
    LLOOKUP(S("\x05\x02\x50"), little(5, 4), MAIN, 0, 0x10, CUT_SHORT);
    LLOOKUP(S("\x05"), little(5, 4), MAIN, 0, 0x10, CUT_SHORT);
    /* Behind a bounded entry that holds the address it isn't read. */
#define LIST S("\x07\x10\0\0\0\x20\0\0\0\x01\x51\x05\x01\x50\x09")
    LLOOKUP(LIST, little(5, 4), MAIN, 0, 0x10, DONE, 0x10, 0x20, 10, 1);
    LLOOKUP(LIST, little(5, 4), DWO, 0, 0x1f, DONE, 0x10, 0x20, 10, 1);
    LLOOKUP(LIST, little(5, 4), MAIN, 0, 0x30, NO_KIND_9);
    LLOOKUP(LIST, little(5, 4), MAIN, 0, MAX, NO_KIND_9);
#undef LIST
    LLOOKUP(S("\x05\x01\x50\x04\x01\x02\x01\x51\x09"), little(5, 4), MAIN, 0, 0x101, DONE, 0x101, 0x102, 7, 1);
    LLOOKUP(S("\x05\x01\x50\x04\x01\x02\x01\x51\x09"), little(5, 4), MAIN, 0, 0x102, NO_KIND_9);
    /* Twice, and then a bounded entry. */
    LLOOKUP(S("\x05\x01\x50\x05\x01\x52\0"), little(5, 4), MAIN, 0, 5, BY_DEFAULT(2, 1));
    LLOOKUP(S("\x05\x01\x50\x05\x01\x52\0"), little(5, 4), MAIN, 0, MAX, NOT_THERE);
    LLOOKUP(S("\x05\0\x05\x01\x50\x08\x05\0\0\0\x01\x01\x51\0"), little(5, 4), MAIN, 0, 5, DONE, 5, 6, 12, 1);
    LLOOKUP(S("\x05\0\x05\x01\x50\x08\x05\0\0\0\x01\x01\x51\0"), little(5, 4), MAIN, 0, 6, BY_DEFAULT(2, 0));
    /* A failed lookup behind it, in each kind that has one. */
#define LIST S("\x05\x01\x50\x02\0\x02\x01\x51\0")
    LLOOKUP(LIST, little(5, 4), MAIN, 0, 5, CUT_SHORT);
    LLOOKUP(LIST, little(5, 4), MAIN, 0, MAX, CUT_SHORT);
    IS(location, yz_location_lookup(LIST, BIG_TABLE, 8, big(5, 4), DWO, 0, 0x100, 5), CUT_SHORT);
#undef LIST
    LLOOKUP(S("\x05\x01\x50\x01\x02\0"), little(5, 4), MAIN, 0, 5, CUT_SHORT);
    LLOOKUP(S("\x05\x01\x50\x03\x02\x08\x01\x51\0"), little(5, 4), MAIN, 0, 5, CUT_SHORT);
    LLOOKUP(S("\x05\x01\x50\x02" INDEX_2_61 "\0\x01\x51\0"), little(5, 8), MAIN, 0, 5, TOO_FAR);
    LLOOKUP(S("\x05\x01\x50\x02\0\x01\x01\x51\x02\0\x02\x01\x52\0"), little(5, 4), MAIN, 0, 0x10, DONE, 0x10, 0x20, 7, 1);
    LLOOKUP(S("\x05\x01\x50\x02\0\x01\x01\x51\x02\0\x02\x01\x52\0"), little(5, 4), MAIN, 0, 0x20, CUT_SHORT);
    /* A base address behind it is the next pair's. */
    LLOOKUP(S("\x05\x01\x50\x01\x01\x04\x01\x02\x01\x51\0"), little(5, 4), MAIN, 0, 0x21, DONE, 0x21, 0x22, 9, 1);
    LLOOKUP(S("\x05\x01\x50\x01\x01\x04\x01\x02\x01\x51\0"), little(5, 4), MAIN, 0, 0x101, BY_DEFAULT(2, 1));
    /* No bounded entry: an empty one, and one of removed code. */
    LLOOKUP(S("\x07\x10\0\0\0\x10\0\0\0\x01\x51\x05\x01\x50\0"), little(5, 4), MAIN, 0, 0x10, BY_DEFAULT(13, 1));
    LLOOKUP(S("\x08\xfe\xff\xff\xff\x01\x01\x51\x05\x01\x50\0"), little(5, 4), MAIN, 0, 0xfffffffe, BY_DEFAULT(10, 1));
    /* A bounded entry of a default's range, in kinds 7, 8 and 4 and as a bare pair; at any other size it is shorter. */
#define ALL_ONES "\xff\xff\xff\xff\xff\xff\xff\xff"
#define ALL_0 "\0\0\0\0\0\0\0\0"
    LLOOKUP(S("\x05\x01\x50\x07" ALL_0 ALL_ONES "\x01\x51\0"), little(5, 8), MAIN, 0, 5, DONE, 0, MAX, 21, 1);
    LLOOKUP(S("\x05\x01\x50\x07" ALL_0 ALL_ONES "\x01\x51\0"), big(5, 8), DWO, 0, MAX - 1, DONE, 0, MAX, 21, 1);
    LLOOKUP(S("\x05\x01\x50\x07" ALL_0 ALL_ONES "\x01\x51\0"), little(5, 8), MAIN, 0, MAX, NOT_THERE);
    LLOOKUP(S("\x05\x01\x50\x07" ALL_0 ALL_ONES "\x01\x51\x09"), little(5, 8), MAIN, 0, 5, DONE, 0, MAX, 21, 1);
    LLOOKUP(S("\x05\x01\x50\x07" ALL_0 ALL_ONES "\x01\x51\x09"), little(5, 8), MAIN, 0, MAX, NO_KIND_9);
    LLOOKUP(S("\x08" ALL_0 "\xff\xff\xff\xff\xff\xff\xff\xff\xff\x01\x01\x51\x05\x01\x50\x09"), little(5, 8), MAIN, 0, 0, DONE,
            0, MAX, 20, 1);
    IS(location, yz_location_lookup(S("\x05\0\x04\0\xff\xff\xff\xff\xff\xff\xff\xff\xff\x01\x01\x51\x09"), NO_BYTES, 0,
                                    little(5, 8), MAIN, 0, 0, 5), DONE, 0, MAX, 15, 1);
    IS(location, yz_location_lookup(S(ALL_0 ALL_ONES "\x01\0\x51\x05"), NO_BYTES, 0, little(4, 8), MAIN, 0, 0, MAX - 1), DONE, 0,
       MAX, 18, 1);
    IS(location, yz_location_lookup(S(ALL_0 ALL_ONES "\x01\0\x51\x05"), NO_BYTES, 0, little(4, 8), MAIN, 0, 0, MAX), CUT_SHORT);
    LLOOKUP(S("\x05\x01\x50\x07\0\0\0\xff\xff\xff\x01\x51\0"), little(5, 3), MAIN, 0, 0xfffffe, DONE, 0, 0xffffff, 11, 1);
    LLOOKUP(S("\x05\x01\x50\x07\0\0\0\xff\xff\xff\x01\x51\0"), little(5, 3), MAIN, 0, 0xffffff, BY_DEFAULT(2, 1));
#undef ALL_0
#undef ALL_ONES
    /* At the section's end; the byte behind an end mark isn't read. */
    LLOOKUP(S("\x05\x01\x50"), little(5, 4), MAIN, 0, 7, BY_DEFAULT(2, 1));
    LLOOKUP(S("\x05\x01\x50"), little(5, 4), MAIN, 0, MAX, NOT_THERE);
    LLOOKUP(S("\x05\x01\x50"), little(5, 4), MAIN, 3, 7, NOT_THERE);
    LLOOKUP(S("\x05\x01\x50\0\x09"), little(5, 4), MAIN, 0, 7, BY_DEFAULT(2, 1));
    LLOOKUP(S("\x09\x05\0"), little(5, 4), MAIN, 1, 7, BY_DEFAULT(3, 0));
    LLOOKUP(S("\x07\x10\0\0\0\x20\0\0\0\x01\x51\x05\x01\x50"), little(5, 4), MAIN, 0, 0x10, DONE, 0x10, 0x20, 10, 1);
    LLOOKUP(S("\x07\x10\0\0\0\x20\0\0\0\x01\x51\x05\x01\x50"), little(5, 4), MAIN, 0, 0x20, BY_DEFAULT(13, 1));
    LLOOKUP(NO_BYTES, little(4, 8), DWO, 0, 7, NOT_THERE);
    LLOOKUP(NO_BYTES, little(6, 1), MAIN, 0, MAX, NOT_THERE);
    LLOOKUP(NO_BYTES, little(6, 7), MAIN, 1, MAX, BAD_SIZE(7));
    /* Split lists of every version have it. */
#define LIST S("\x05\x01\0\x50\0")
    LLOOKUP(LIST, little(4, 4), DWO, 0, 7, BY_DEFAULT(3, 1));
    LLOOKUP(LIST, little(3, 1), DWO, 0, MAX - 1, BY_DEFAULT(3, 1));
    LLOOKUP(LIST, little(0, 8), DWO, 0, MAX, NOT_THERE);
    LLOOKUP(LIST, big(4, 4), DWO, 0, 7, CUT_SHORT);
    LLOOKUP(LIST, little(5, 4), DWO, 0, 7, REFUSED(YZ_UNKNOWN_LOC_LISTS_ENTRY, 0x50));
#undef LIST
#define LIST S("\x05\0\x01\x50\x07\x12\x34\x56\x78\0\x01\x51\0")
    LLOOKUP(LIST, big(3, 2), DWO, 0, 0x1234, DONE, 0x1234, 0x5678, 11, 1);
    LLOOKUP(LIST, big(4, 2), DWO, 0, 0x1233, BY_DEFAULT(3, 1));
    LLOOKUP(LIST, big(4, 2), DWO, 0, MAX, NOT_THERE);
#undef LIST
    LLOOKUP(S("\x05\x01\0\x50\x03\x01\x08\0\0\0\x01\0\x51\x09"), little(4, 4), DWO, 0, 0x27, DONE, 0x20, 0x28, 12, 1);
    LLOOKUP(S("\x05\x01\0\x50\x03\x01\x08\0\0\0\x01\0\x51\x09"), little(4, 4), DWO, 0, 0x28, NO_KIND_9);
    /* A walk has it at its place, with its whole range. */
#define LIST S("\x05\x01\x50\x07\x10\0\0\0\x20\0\0\0\x01\x51\0")
    walk_from(0, 7, 0);
    LNEXT(LIST, TABLE, little(5, 4), 3, 7, 1, BY_DEFAULT(2, 1));
    LNEXT(LIST, TABLE, little(5, 4), 14, 7, 2, DONE, 0x10, 0x20, 13, 1);
    LNEXT(LIST, TABLE, little(5, 4), 15, 7, 3, END);
#undef LIST
}

static void put_address(uint64_t address, yz_encoding encoding) {
    const size_t width = encoding.address_size;
    size_t i;
    for (i = 0; i < width; i++)
        put((uint8_t)(address >> 8 * (encoding.big_endian != 0 ? width - 1 - i : i)));
}

/* Entries that lists are put together of: the end mark, two that are refused, raw and by a table without rows, a default
 * location, two bounded ones and an empty one. */
enum { ENTRY_END, ENTRY_NO_KIND, ENTRY_NO_ROW, ENTRY_DEFAULT, ENTRY_BOUNDED, ENTRY_WHOLE, ENTRY_EMPTY, ENTRIES };

/* One of these put behind the others, and the answer that it has by itself. */
static fields put_location(unsigned which, yz_encoding encoding) {
    static const uint8_t codes_of[ENTRIES] = {0, 9, 2, 5, 7, 7, 7};
    const uint64_t ones = MAX >> (64 - 8 * encoding.address_size);
    fields answer = fields_of(YZ_DONE, YZ_NO_REFUSAL, 0);
    put(codes_of[which]);
    if (which == ENTRY_END) return fields_of(YZ_END, YZ_NO_REFUSAL, 0);
    if (which == ENTRY_NO_KIND) return fields_of(YZ_REFUSED, YZ_UNKNOWN_LOC_LISTS_ENTRY, 9);
    if (which == ENTRY_NO_ROW) {
        answer = fields_of(YZ_REFUSED, YZ_UNEXPECTED_EOF, 0);
        put(0);
        put(0);
    } else if (which == ENTRY_EMPTY) {
        answer = fields_of(YZ_NOTHING, YZ_NO_REFUSAL, 0);
        put_address(0x18, encoding);
        put_address(0x18, encoding);
    } else {
        answer.at[3] = which == ENTRY_BOUNDED ? 0x10 : 0;
        answer.at[4] = which == ENTRY_BOUNDED ? 0x20 : which == ENTRY_WHOLE ? ones : MAX;
        if (which != ENTRY_DEFAULT) {
            put_address(answer.at[3], encoding);
            put_address(answer.at[4], encoding);
        }
    }
    /* An expression of one byte. */
    if (encoding.version < 5 && encoding.big_endian != 0) put(0);
    put(1);
    if (encoding.version < 5 && encoding.big_endian == 0) put(0);
    if (answer.at[0] == YZ_DONE) {
        answer.at[5] = made_len;
        answer.at[6] = 1;
    }
    put(0x50);
    return answer;
}

/* The answer for an address, by the answers of so many entries. */
static fields by_entries(const fields *answers, const unsigned *which, unsigned n, uint64_t address) {
    fields kept = fields_of(YZ_NOT_THERE, YZ_NO_REFUSAL, 0);
    unsigned i;
    for (i = 0; i < n; i++) {
        const fields one = answers[i];
        if (one.at[0] == YZ_REFUSED) return one;
        if (one.at[0] == YZ_END) return kept;
        if (one.at[0] == YZ_NOTHING || address < one.at[3] || address >= one.at[4]) continue;
        if (which[i] != ENTRY_DEFAULT) return one;
        if (kept.at[0] == YZ_NOT_THERE) kept = one;
    }
    return kept;
}

/* A list of so many of these entries, by its number, with which they are and the answer of each. */
typedef struct order {
    unsigned n, which[3];
    fields answers[3];
} order;

static order put_order(unsigned n, unsigned list, yz_encoding encoding) {
    order all;
    unsigned i;
    memset(&all, 0, sizeof all);
    all.n = n;
    made_len = 0;
    for (i = 0; i < n; i++, list /= ENTRIES) {
        all.which[i] = list % ENTRIES;
        all.answers[i] = put_location(all.which[i], encoding);
    }
    return all;
}

/* Addresses at the bounds of each, ascending. */
#define BOUNDS 9
typedef struct nine { uint64_t at[BOUNDS]; } nine;

static nine bounds_of(yz_encoding encoding) {
    const uint64_t ones = MAX >> (64 - 8 * encoding.address_size);
    const nine all = {{0, 0x0f, 0x10, 0x1f, 0x20, ones - 1, ones, ones < MAX ? MAX - 1 : MAX, MAX}};
    return all;
}

/* Whether lookups in a list answer as its entries say. */
static bool order_is(const order *all, yz_encoding encoding, yz_file_type file_type) {
    const nine addresses = bounds_of(encoding);
    unsigned i;
    for (i = 0; i < BOUNDS; i++) {
        const fields expected = by_entries(all->answers, all->which, all->n, addresses.at[i]);
        const fields got =
            of_location(yz_location_lookup(made, made_len, NO_BYTES, 0, encoding, file_type, 0, 0x100, addresses.at[i]));
        if (memcmp(&got, &expected, sizeof got) != 0) return false;
    }
    return true;
}

/* All lists of up to three of these entries. */
typedef bool one_order(const order *all, yz_encoding encoding, yz_file_type file_type);

static bool every_order(one_order *is, yz_encoding encoding, yz_file_type file_type) {
    unsigned n, lists, list;
    for (n = 0, lists = 1; n <= 3; n++, lists *= ENTRIES)
        for (list = 0; list < lists; list++) {
            const order all = put_order(n, list, encoding);
            if (is(&all, encoding, file_type)) continue;
            printf("test.c: version %u, split %u, size %u, big endian %u, %u entries %u %u %u: not so\n", encoding.version,
                   file_type == YZ_FILE_DWO, encoding.address_size, encoding.big_endian, n, all.which[0], all.which[1],
                   all.which[2]);
            return false;
        }
    return true;
}

static void orders_of_entries(one_order *is) {
    static const uint8_t sizes[] = {1, 2, 3, 4, 8};
    unsigned i, big_endian;
    uint16_t version;
    for (i = 0; i < sizeof sizes; i++)
        for (big_endian = 0; big_endian < 2; big_endian++)
            for (version = 3; version <= 6; version++) {
                const yz_encoding encoding = encoded(version, sizes[i], false, big_endian);
                CHECK(every_order(is, encoding, DWO));
                if (version >= 5) CHECK(every_order(is, encoding, MAIN));
            }
}

static void test_location_lookup(void) {
#define LIST S("\x08\x10\0\0\0\x08\x01\x50\x04\x01\x02\x01\x51\x09")
    LLOOKUP(LIST, little(5, 4), MAIN, 0, 0x17, DONE, 0x10, 0x18, 7, 1);
    LLOOKUP(LIST, little(5, 4), DWO, 0, 0x101, DONE, 0x101, 0x102, 12, 1);
    LLOOKUP(LIST, little(5, 4), MAIN, 0, 0x18, REFUSED(YZ_UNKNOWN_LOC_LISTS_ENTRY, 9));
    LLOOKUP(LIST, little(5, 4), MAIN, MAX, 0x17, CUT_SHORT);
    LLOOKUP(LIST, little(5, 5), MAIN, MAX, 0x17, BAD_SIZE(5));
#undef LIST
#define LIST S("\x03\0\x08\0\0\0\x01\0\x50\0")
    LLOOKUP(LIST, little(4, 4), DWO, 0, 0x12, DONE, 0x10, 0x18, 8, 1);
    LLOOKUP(LIST, little(4, 4), DWO, 0, 0x18, NOT_THERE);
    LLOOKUP(LIST, little(4, 4), MAIN, 0, 0x12, CUT_SHORT);
#undef LIST
    LLOOKUP(S("\x03\0\x08\0\0\0\x01\0"), little(4, 4), DWO, 0, 0x12, CUT_SHORT);
    LLOOKUP(S("\x09\x04\x01\x02\0\0"), little(5, 4), MAIN, 1, 0x101, DONE, 0x101, 0x102, 5, 0);
    LLOOKUP(NO_BYTES, little(5, 4), MAIN, 0, 0, NOT_THERE);
    LLOOKUP(NO_BYTES, little(5, 4), MAIN, 1, 0, CUT_SHORT);
#define LIST S("\x08\x01\x02\x03\x08\x01\x50\x04\x01\x02\x01\x51\x07\x10\0")
    LLOOKUP(LIST, little(5, 3), MAIN, 0, 0x030208, DONE, 0x030201, 0x030209, 6, 1);
    LLOOKUP(LIST, big(5, 3), DWO, 0, 0x01020a, DONE, 0x010203, 0x01020b, 6, 1);
    LLOOKUP(LIST, little(5, 3), DWO, 0, 0x101, DONE, 0x101, 0x102, 11, 1);
    LLOOKUP(LIST, little(5, 3), MAIN, 0, 0x030209, CUT_SHORT);
#undef LIST
    LLOOKUP(S("\x08\xf0\xff\xff\x10\0\0"), little(5, 3), MAIN, 0, 0xfffff0, NOT_THERE);
    LLOOKUP(NO_BYTES, little(5, 3), MAIN, 1, 0, CUT_SHORT);
    IS(location, yz_location_lookup(S("\x03\0\x08\0\0\0\x01\0\x50\0"), TABLE_3, 8, little(4, 3), DWO, 0, 0, 0x12), DONE,
       0x10, 0x18, 8, 1);
    default_locations();
    orders_of_entries(order_is);
}

/* ---- Lookups of several addresses ---- */

/* The places of answers, and one before them and one behind that are no call's. */
static struct { yz_location before; yz_found found; yz_location behind; } places;
#define FOUND places.found.at

/* The addresses that are asked for; behind them are 0, which would descend. */
static uint64_t asked[2 * YZ_MOST_ADDRESSES];
static size_t asked_len;
#define ASKED asked, asked_len, &places.found
#define NO_ADDRESSES NULL, 0, &places.found

/* Whether all places but the first n are as they were. */
static bool places_old_from(size_t n) {
    return all_old(&places.before, sizeof places.before) && all_old(&places.behind, sizeof places.behind) &&
           all_old(FOUND + n, sizeof FOUND - n * sizeof *FOUND);
}

static void ask_none(void) {
    old(&places, sizeof places);
    memset(asked, 0, sizeof asked);
    asked_len = 0;
}

/* So many addresses, each a step above the one before. */
static void ask(size_t n, uint64_t first, uint64_t step) {
    ask_none();
    for (; asked_len < n; asked_len++)
        asked[asked_len] = first + step * asked_len;
}

/* A row is an address and its answer. */
#define ROW 8
typedef uint64_t row[ROW];

static void ask_rows(const row *rows, size_t n) {
    ask_none();
    for (; asked_len < n; asked_len++)
        asked[asked_len] = rows[asked_len][0];
}

static bool answer_is(size_t i, const uint64_t *expected) {
    const fields got = of_location(FOUND[i]);
    return memcmp(got.at, expected, (ROW - 1) * sizeof *expected) == 0;
}

static void rows_are(const row *rows, size_t n, int line, const char *what) {
    size_t i;
    for (i = 0; i < n; i++) {
        if (!answer_is(i, rows[i] + 1)) printf("test.c:%d: %s: address %u is answered otherwise\n", line, test, (unsigned)i);
        check(answer_is(i, rows[i] + 1), line, what);
    }
    check(places_old_from(n), line, "untouched behind the addresses");
}

/* A call on the addresses of the rows, which reads so many entries and has these answers. */
#define GIVES(call, entries, ...)                                                                                    \
    do {                                                                                                             \
        const row rows[] = {__VA_ARGS__};                                                                            \
        const size_t n = sizeof rows / sizeof *rows;                                                                 \
        ask_rows(rows, n);                                                                                           \
        IS(count, call, DONE, entries);                                                                              \
        rows_are(rows, n, __LINE__, #call);                                                                          \
    } while (0)

/* The same on the addresses that are asked, of which each has this answer. */
#define GIVES_EACH(call, entries, ...)                                                                               \
    do {                                                                                                             \
        const uint64_t each[ROW - 1] = {__VA_ARGS__};                                                                \
        bool all = true;                                                                                             \
        size_t place;                                                                                                \
        old(&places, sizeof places);                                                                                 \
        IS(count, call, DONE, entries);                                                                              \
        for (place = 0; place < asked_len; place++)                                                                  \
            all = all && answer_is(place, each);                                                                     \
        check(all, __LINE__, "the same answer for each: " #call);                                                    \
        check(places_old_from(asked_len), __LINE__, "untouched behind the addresses: " #call);                       \
    } while (0)

/* A call on the addresses that are asked which is refused or answers none. */
#define LEAVES(call, ...)                                                                                            \
    do {                                                                                                             \
        old(&places, sizeof places);                                                                                 \
        IS(count, call, __VA_ARGS__);                                                                                \
        check(places_old_from(0), __LINE__, "untouched: " #call);                                                    \
    } while (0)

#define TOO_MANY_ADDRESSES REFUSED(YZ_TOO_MANY_ADDRESSES, 0)
#define DESCENDING REFUSED(YZ_DESCENDING_ADDRESSES, 0)

/* A call for the addresses that are asked, and whether it is refused and leaves the places as they were. */
typedef yz_count ask_call(SECTION, yz_encoding encoding, uint64_t offset);

static bool refuses(ask_call *call, SECTION, yz_encoding encoding, uint64_t offset, yz_refusal refusal) {
    const fields expected = fields_of(YZ_REFUSED, refusal, 0);
    fields got;
    old(&places, sizeof places);
    got = of_count(call(section, section_len, encoding, offset));
    return memcmp(&got, &expected, sizeof got) == 0 && places_old_from(0);
}

/* What is refused before the list is opened, and what opening refuses. The list's first entry holds every address but MAX. */
static void asking(ask_call *call, SECTION, yz_encoding encoding) {
#define WHOLE_LIST section, section_len, encoding
#define UNREAD_LIST section, section_len, unread
    static const size_t counts[] = {1, 2, 63, 64};
    const yz_encoding unread = encoded(encoding.version, 5, false, encoding.big_endian);
    size_t n, i, c;
    /* None: nothing is opened. */
    ask_none();
    LEAVES(call(WHOLE_LIST, 0), DONE, 0);
    LEAVES(call(WHOLE_LIST, section_len), DONE, 0);
    LEAVES(call(WHOLE_LIST, section_len + 1), DONE, 0);
    LEAVES(call(WHOLE_LIST, MAX), DONE, 0);
    LEAVES(call(NO_BYTES, encoding, 0), DONE, 0);
    LEAVES(call(NO_BYTES, unread, MAX), DONE, 0);
    LEAVES(call(UNREAD_LIST, 0), DONE, 0);
    /* Opening refused, and then a section that is empty from there on, without an end mark. */
    for (c = 0; c < sizeof counts / sizeof *counts; c++)
        for (i = 0; i < 3; i++) {
            ask(counts[c], i < 2 ? 5 : MAX - 126, i);
            GIVES_EACH(call(WHOLE_LIST, section_len + 1), 0, CUT_SHORT);
            GIVES_EACH(call(WHOLE_LIST, MAX), 0, CUT_SHORT);
            GIVES_EACH(call(UNREAD_LIST, 0), 0, BAD_SIZE(5));
            GIVES_EACH(call(UNREAD_LIST, MAX), 0, BAD_SIZE(5));
            GIVES_EACH(call(NO_BYTES, unread, 1), 0, BAD_SIZE(5));
            GIVES_EACH(call(WHOLE_LIST, section_len), 0, NOT_THERE);
            GIVES_EACH(call(NO_BYTES, encoding, 0), 0, NOT_THERE);
        }
    /* Too many, equal, ascending and descending: 20 before 21, and both before opening. */
    for (n = YZ_MOST_ADDRESSES + 1; n <= 2 * YZ_MOST_ADDRESSES; n++)
        for (i = 0; i < 3; i++) {
            ask(n, 1000, i == 0 ? 0 : i == 1 ? 1 : MAX);
            CHECK(refuses(call, WHOLE_LIST, 0, YZ_TOO_MANY_ADDRESSES));
            CHECK(refuses(call, UNREAD_LIST, MAX, YZ_TOO_MANY_ADDRESSES));
        }
    for (i = 0; i < YZ_MOST_ADDRESSES; i++) {
        ask(YZ_MOST_ADDRESSES + 1, 5, 0);
        asked[i] = 6;
        CHECK(refuses(call, WHOLE_LIST, 0, YZ_TOO_MANY_ADDRESSES));
    }
    /* A descending pair at every place, among equals and among others. */
    for (n = 2; n <= YZ_MOST_ADDRESSES; n++) {
        bool all = true;
        for (i = 0; all && i + 1 < n; i++) {
            ask(n, 5, 0);
            asked[i] = 6;
            all = refuses(call, WHOLE_LIST, 0, YZ_DESCENDING_ADDRESSES);
            ask(n, 5, 0);
            asked[i + 1] = 4;
            all = all && refuses(call, UNREAD_LIST, MAX, YZ_DESCENDING_ADDRESSES);
            ask(n, 10, 2);
            asked[i + 1] = asked[i] - 1;
            all = all && refuses(call, WHOLE_LIST, MAX, YZ_DESCENDING_ADDRESSES);
            ask(n, 10, 2);
            asked[i] = MAX;
            all = all && refuses(call, WHOLE_LIST, 0, YZ_DESCENDING_ADDRESSES);
        }
        check(all, __LINE__, "a descending pair at every place");
    }
    ask(YZ_MOST_ADDRESSES, 1000, MAX);
    LEAVES(call(WHOLE_LIST, 0), DESCENDING);
    /* Up to 64 are answered, equal and ascending. */
    for (n = 1; n <= YZ_MOST_ADDRESSES; n++)
        for (i = 0; i < 2; i++) {
            yz_location first;
            bool all = true;
            ask(n, 5, i);
            IS(count, call(WHOLE_LIST, 0), DONE, 1);
            first = FOUND[0];
            for (c = 1; c < n; c++)
                all = all && memcmp(&FOUND[c], &first, sizeof first) == 0;
            CHECK(all && first.result == YZ_DONE && first.begin == 0 && first.end == MAX && places_old_from(n));
        }
#undef UNREAD_LIST
#undef WHOLE_LIST
}

/* A number below another, in no order, but the same in every run. */
static uint64_t below(uint64_t bound) {
    static uint64_t seed;
    seed = seed * UINT64_C(6364136223846793005) + UINT64_C(1442695040888963407);
    return (seed >> 32) % bound;
}

/* How a list is written, and where it begins among the bytes that are made. */
typedef struct setting {
    bool locations;
    yz_file_type file_type;
    yz_encoding encoding;
    uint64_t offset, base_address;
} setting;

/* An address table of four rows, from 8 on. */
static uint8_t four_rows[8 + 4 * 8];

/* Most are among few, so that entries meet; some are the largest ones. */
static uint64_t any_address(yz_encoding encoding) {
    const uint64_t ones = MAX >> (64 - 8 * encoding.address_size);
    const uint64_t near = below(0x60);
    return below(24) == 0 ? ones - near % 3 : near;
}

/* A length, or a number that is LEB128 in every version: some are padded. */
static void put_number(uint64_t number, char operand, yz_encoding encoding) {
    if (is_leb128(operand, encoding.version))
        put_uleb128(number, below(8) == 0);
    else
        put_address(number, encoded(4, operand == 'x' ? 2 : 4, false, encoding.big_endian));
}

/* An entry of a kind, or for 0 a bare pair. Few indexes have no row. */
static void put_entry(const setting *in, uint64_t kind) {
    const char *operand = (in->locations ? location_operands : range_operands)[kind];
    const bool is_pair = kind == 0 || kind == 4;
    const uint64_t begin = any_address(in->encoding), length = below(0x18);
    unsigned n = 0;
    if (kind != 0) put((uint8_t)kind);
    for (; *operand != 0; operand++, n++) {
        uint64_t number = length;
        if (*operand == 'a' || is_pair)
            number = n == 0 ? begin : begin + length;
        else if (kind <= 2 || (kind == 3 && n == 0))
            number = below(20) == 0 ? 4 + below(3) : below(4);
        if (*operand == 'x') number = below(3);
        if (*operand == 'a')
            put_address(number, in->encoding);
        else
            put_number(number, *operand, in->encoding);
        for (; *operand == 'x' && number > 0; number--)
            put((uint8_t)below(256));
    }
}

/* Bytes, then a list of up to so many entries, then what ends it: a mark with bytes behind, a kind that is none, or the section's
 * end, also within an entry. */
static void put_list(setting *in, uint64_t most) {
    const yz_encoding encoding = in->encoding;
    const bool kinds = encoding.version >= 5 || (in->locations && in->file_type == YZ_FILE_DWO);
    uint64_t n = below(most + 1), i;
    made_len = 0;
    for (i = 0; i < 4; i++)
        put_address(any_address(encoding), encoding);
    memcpy(four_rows + 8, made, made_len);
    made_len = 0;
    for (i = below(3); i > 0; i--)
        put((uint8_t)below(256));
    in->offset = made_len;
    in->base_address = any_address(encoding);
    for (; n > 0; n--) {
        const size_t at = made_len;
        if (kinds) {
            put_entry(in, 1 + below(in->locations ? 8 : 7));
        } else if (below(8) == 0) {
            put_address(MAX, encoding);
            put_address(any_address(encoding), encoding);
        } else {
            put_entry(in, 0);
        }
        if (n == 1 && below(8) == 0) made_len = at + below(made_len - at);
    }
    n = below(4);
    if (n == 0) {
        for (i = kinds ? 1 : 2 * encoding.address_size; i > 0; i--)
            put(0);
        for (i = below(4); i > 0; i--)
            put((uint8_t)below(256));
    } else if (n == 1) {
        put(below(2) == 0 ? 9 : 0xff);
    }
}

#define LENT_TABLE four_rows, (size_t)8 + 4 * in->encoding.address_size, 8, in->encoding
#define LENT_LIST made, made_len, LENT_TABLE

/* The range of each entry that a walk reads, none where it is no bounded entry's; and the count of entries then. */
typedef struct step { uint64_t begin, end, entries; } step;
#define STEPS 600
static step steps[STEPS];
static size_t steps_len;

/* The steps up to the first refusal or the end. */
static void walk_list(const setting *in) {
    walk_from(in->offset, in->base_address, in->file_type == YZ_FILE_DWO);
    for (steps_len = 0; steps_len < STEPS; steps_len++) {
        yz_result result = YZ_END;
        step one = {0, 0, 0};
        if (in->locations) {
            const yz_raw_location raw = yz_location_next_raw(made, made_len, in->encoding, &walk);
            if (raw.result == YZ_DONE) {
                const yz_location item = yz_location_convert_raw(LENT_TABLE, raw.entry, &walk);
                result = item.result;
                if (raw.entry.kind != YZ_LLE_DEFAULT_LOCATION) {
                    one.begin = item.begin;
                    one.end = item.end;
                }
            }
        } else {
            const yz_raw_range raw = by->next_raw(made, made_len, in->encoding, &walk);
            if (raw.result == YZ_DONE) {
                const yz_range item = yz_range_convert_raw(LENT_TABLE, raw.entry, &walk);
                result = item.result;
                one.begin = item.begin;
                one.end = item.end;
            }
        }
        one.entries = walk.entries;
        steps[steps_len] = one;
        if (result == YZ_END || result == YZ_REFUSED) {
            steps_len++;
            return;
        }
    }
}

/* How many entries the lookup of an address reads. */
static uint64_t entries_for(uint64_t address) {
    size_t i;
    for (i = 0; i < steps_len; i++)
        if (steps[i].begin <= address && address < steps[i].end) return steps[i].entries;
    return steps[steps_len - 1].entries;
}

static fields single(const setting *in, uint64_t address) {
    if (in->locations)
        return of_location(yz_location_lookup(LENT_LIST, in->file_type, in->offset, in->base_address, address));
    return of_range(by->lookup(LENT_LIST, in->offset, in->base_address, address));
}

/* Addresses at the bounds of entries and others, ascending. */
static void ask_any(size_t n, yz_encoding encoding) {
    const uint64_t ones = MAX >> (64 - 8 * encoding.address_size);
    const uint64_t far[] = {0, ones, ones - 1, MAX, MAX - 1, UINT64_C(1) << 63, ones + 1};
    const uint64_t width = 1 + below(0x70);
    ask_none();
    for (; asked_len < n; asked_len++) {
        uint64_t address = below(width);
        size_t i;
        if (below(3) == 0) {
            const step near = steps[below(steps_len)];
            address = below(2) == 0 ? near.begin : near.end;
            address -= below(2);
        } else if (below(16) == 0) {
            address = far[below(sizeof far / sizeof *far)];
        }
        for (i = asked_len; i > 0 && asked[i - 1] > address; i--)
            asked[i] = asked[i - 1];
        asked[i] = address;
    }
}

/* How often addresses were found, not there and refused. */
static uint64_t met[3];

/* Whether the addresses that are asked have the answers of single lookups, and as many entries are read as by the
 * longest of these. */
static bool as_singles(const setting *in) {
    uint64_t most = 0;
    yz_count count;
    fields got, expected = fields_of(YZ_DONE, YZ_NO_REFUSAL, 0);
    size_t i;
    if (in->locations)
        count = yz_location_lookups(LENT_LIST, in->file_type, in->offset, in->base_address, ASKED);
    else
        count = by->lookups(LENT_LIST, in->offset, in->base_address, ASKED);
    for (i = 0; i < asked_len; i++) {
        const uint64_t entries = entries_for(asked[i]);
        if (entries > most) most = entries;
        got = of_location(FOUND[i]);
        if (i == 0 || asked[i] != asked[i - 1]) expected = single(in, asked[i]);
        if (memcmp(&got, &expected, sizeof got) != 0) return false;
        met[expected.at[0] == YZ_DONE ? 0 : expected.at[0] == YZ_NOT_THERE ? 1 : 2]++;
    }
    got = of_count(count);
    expected = fields_of(YZ_DONE, YZ_NO_REFUSAL, 0);
    expected.at[3] = most;
    return memcmp(&got, &expected, sizeof got) == 0 && places_old_from(asked_len);
}

/* Lists of a version, of all sizes and in both orders: short ones, some longer ones, and one of some hundred entries. */
static void any_lists(bool locations, yz_file_type file_type, uint16_t version) {
    static const uint8_t sizes[] = {1, 2, 3, 4, 8};
    unsigned i, big_endian, list, c;
    for (i = 0; i < sizeof sizes; i++)
        for (big_endian = 0; big_endian < 2; big_endian++) {
            setting in = {locations, file_type, encoded(version, sizes[i], false, big_endian), 0, 0};
            bool all = true;
            for (list = 0; all && list < 100; list++) {
                put_list(&in, list == 0 ? 500 : list % 4 == 0 ? 60 : 8);
                walk_list(&in);
                for (c = 0; all && c < 4; c++) {
                    ask_any(c == 0 ? below(4) : c == 1 ? 64 : below(65), in.encoding);
                    all = as_singles(&in);
                    if (all) continue;
                    printf("test.c: version %u, locations %u, split %u, size %u, big endian %u, list %u, %u addresses: not so\n",
                           version, locations, file_type == YZ_FILE_DWO, sizes[i], big_endian, list, (unsigned)asked_len);
                }
            }
            check(all, __LINE__, "the answers of single lookups, and their entries");
        }
}

#define LOOKUPS(list, encoding, offset) by->lookups(list, TABLE, 8, encoding, offset, 0, ASKED)
#define LOOKUPS_FROM(base_address, list, encoding, offset) by->lookups(list, TABLE, 8, encoding, offset, base_address, ASKED)

static yz_count ask_ranges(SECTION, yz_encoding encoding, uint64_t offset) {
    return by->lookups(section, section_len, NO_BYTES, 0, encoding, offset, 0, ASKED);
}

static void test_range_lookups(void) {
    uint64_t version;
    /* Two ranges, and a kind that is none. */
#define LIST S("\x07\x10\0\0\0\x10\x07\x30\0\0\0\x10\x08")
#define FIRST DONE, 0x10, 0x20
#define SECOND DONE, 0x30, 0x40
    ask_none();
    LEAVES(LOOKUPS(LIST, little(5, 4), 0), DONE, 0);
    LEAVES(by->lookups(LIST, TABLE, 8, little(5, 4), 0, 0, NO_ADDRESSES), DONE, 0);
    GIVES(LOOKUPS(LIST, little(5, 4), 0), 1, {0x10, FIRST});
    GIVES(LOOKUPS(LIST, little(5, 4), 0), 1, {0x10, FIRST}, {0x10, FIRST}, {0x1f, FIRST});
    GIVES(LOOKUPS(LIST, little(5, 4), 0), 2, {0x10, FIRST}, {0x35, SECOND});
    GIVES(LOOKUPS(LIST, little(5, 4), 0), 2, {0x10, FIRST}, {0x20, NO_CODE(8)}, {0x35, SECOND});
    GIVES(LOOKUPS(LIST, little(5, 4), 0), 2, {0x20, NO_CODE(8)});
    GIVES(LOOKUPS(LIST, little(5, 4), 0), 2, {0, NO_CODE(8)}, {0x0f, NO_CODE(8)}, {0x10, FIRST}, {0x1f, FIRST},
          {0x20, NO_CODE(8)}, {0x2f, NO_CODE(8)}, {0x30, SECOND}, {0x3f, SECOND}, {0x40, NO_CODE(8)},
          {MAX - 1, NO_CODE(8)}, {MAX, NO_CODE(8)}, {MAX, NO_CODE(8)});
    GIVES(LOOKUPS(LIST, little(5, 4), 6), 1, {0x30, SECOND}, {0x3f, SECOND});
    GIVES(LOOKUPS(LIST, little(5, 4), 6), 1, {0x10, NO_CODE(8)}, {0x30, SECOND});
    GIVES(LOOKUPS(LIST, little(5, 4), 12), 0, {0x10, NO_CODE(8)}, {0x30, NO_CODE(8)});
    GIVES(LOOKUPS(LIST, little(5, 4), 13), 0, {0x10, NOT_THERE}, {0x30, NOT_THERE});
    GIVES(LOOKUPS(LIST, little(5, 4), 14), 0, {0x10, CUT_SHORT}, {0x30, CUT_SHORT});
    GIVES(LOOKUPS(LIST, little(5, 9), 14), 0, {0x10, BAD_SIZE(9)}, {0x30, BAD_SIZE(9)});
    ask(2, 0x35, MAX - 0x24);
    CHECK(asked[0] == 0x35 && asked[1] == 0x10);
    LEAVES(LOOKUPS(LIST, little(5, 4), 0), DESCENDING);
    ask(64, 1, 0);
    GIVES_EACH(LOOKUPS(LIST, little(5, 4), 0), 2, NO_CODE(8));
    ask(65, 1, 0);
    LEAVES(LOOKUPS(LIST, little(5, 4), 0), TOO_MANY_ADDRESSES);
    ask(65, 65, MAX);
    LEAVES(LOOKUPS(LIST, little(5, 4), 0), TOO_MANY_ADDRESSES);
#undef FIRST
#undef SECOND
#undef LIST
    /* What ends a list, and whether it counts. */
    GIVES(LOOKUPS(S("\x07\x10\0\0\0\x10\x07\x30\0\0\0\x10"), little(5, 4), 0), 2, {0x50, NOT_THERE});
    GIVES(LOOKUPS(S("\x07\x10\0\0\0\x10\x07\x30\0\0\0\x10\0\xff"), little(5, 4), 0), 3, {0x50, NOT_THERE});
    GIVES(LOOKUPS(S("\0"), little(5, 4), 0), 1, {5, NOT_THERE});
    GIVES(LOOKUPS(S("\0"), little(5, 4), 1), 0, {5, NOT_THERE});
    GIVES(LOOKUPS(S("\0"), little(5, 4), 2), 0, {1, CUT_SHORT}, {2, CUT_SHORT});
    GIVES(LOOKUPS(S("\0"), little(5, 5), 0), 0, {1, BAD_SIZE(5)});
    ask_none();
    LEAVES(LOOKUPS(S("\0"), little(5, 5), 0), DONE, 0);
    GIVES(LOOKUPS(S("\x07\x10\0\0\0\x10\x07\x30\0"), little(5, 4), 0), 1, {0x10, DONE, 0x10, 0x20}, {0x30, CUT_SHORT});
    GIVES(LOOKUPS(S("\x07\x10\0\0\0\x10\x01" NINE "\x02"), little(5, 4), 0), 1, {0x10, DONE, 0x10, 0x20},
          {0x30, REFUSED(YZ_BAD_UNSIGNED_LEB128, 0)});
    /* The first of several ranges that hold an address, as in a single lookup. */
#define LIST S("\x07\x14\0\0\0\x04\x07\x10\0\0\0\x10\x07\0\0\0\0\x40\x08")
    GIVES(LOOKUPS(LIST, little(5, 4), 0), 3, {0, DONE, 0, 0x40}, {0x10, DONE, 0x10, 0x20}, {0x13, DONE, 0x10, 0x20},
          {0x14, DONE, 0x14, 0x18}, {0x17, DONE, 0x14, 0x18}, {0x18, DONE, 0x10, 0x20}, {0x20, DONE, 0, 0x40});
    GIVES(LOOKUPS(LIST, little(5, 4), 0), 2, {0x13, DONE, 0x10, 0x20}, {0x14, DONE, 0x14, 0x18}, {0x18, DONE, 0x10, 0x20});
    GIVES(LOOKUPS(LIST, little(5, 4), 0), 1, {0x14, DONE, 0x14, 0x18}, {0x17, DONE, 0x14, 0x18});
#undef LIST
    /* The address table: a failed lookup is the answer of those that wait, and its entry is read. */
#define LIST S("\x03\0\x08\x02\0\x02\x03\x01\x08\0")
    GIVES(LOOKUPS(LIST, little(5, 4), 0), 2, {0x0f, CUT_SHORT}, {0x10, DONE, 0x10, 0x18}, {0x17, DONE, 0x10, 0x18},
          {0x20, CUT_SHORT});
    GIVES(LOOKUPS(LIST, little(5, 4), 0), 1, {0x10, DONE, 0x10, 0x18}, {0x17, DONE, 0x10, 0x18});
    GIVES(LOOKUPS(LIST, little(5, 4), 6), 1, {0x20, DONE, 0x20, 0x28});
    GIVES(LOOKUPS(LIST, little(5, 4), 6), 2, {0x10, NOT_THERE}, {0x20, DONE, 0x20, 0x28});
#undef LIST
    GIVES(LOOKUPS(S("\x03" INDEX_2_61 "\x08\0"), little(5, 8), 0), 1, {1, TOO_FAR}, {2, TOO_FAR});
    GIVES(by->lookups(S("\x03\x01\x08\0"), BIG_TABLE, 8, big(5, 4), 0, 0, ASKED), 2, {0x1f, NOT_THERE}, {0x27, DONE, 0x20, 0x28});
    GIVES(by->lookups(S("\x03\x01\x08\0"), TABLE_3, 8, little(5, 3), 0, 0, ASKED), 1, {0x27, DONE, 0x20, 0x28});
    GIVES(by->lookups(S("\x03\x01\x08\0"), TABLE, MAX, little(5, 4), 0, 0, ASKED), 1, {0, CUT_SHORT}, {0x27, CUT_SHORT});
    /* Base addresses, and entries without a range. */
#define LIST S("\x04\x01\x02\x05\0\x10\0\0\x04\x03\x03\x04\x01\x02\0")
    GIVES(LOOKUPS_FROM(0x40, LIST, little(5, 4), 0), 4, {0x41, DONE, 0x41, 0x42}, {0x1001, DONE, 0x1001, 0x1002});
    GIVES(LOOKUPS_FROM(0x40, LIST, little(5, 4), 0), 5, {0x42, NOT_THERE}, {0x1003, NOT_THERE});
    GIVES(LOOKUPS_FROM(0xfffffffe, LIST, little(5, 4), 0), 5, {0x1001, DONE, 0x1001, 0x1002}, {0xffffffff, NOT_THERE});
#undef LIST
    /* Bare pairs, which have no codes. */
#define LIST S("\x01\0\x03\0\xff\xff\0\x20\x03\0\x03\0\x01\0\x03\0\0\0\0\0\x01")
    GIVES(LOOKUPS_FROM(0x40, LIST, little(4, 2), 0), 4, {0x41, DONE, 0x41, 0x43}, {0x42, DONE, 0x41, 0x43},
          {0x2001, DONE, 0x2001, 0x2003});
    GIVES(LOOKUPS_FROM(0x40, LIST, little(3, 2), 0), 5, {0x40, NOT_THERE}, {0x42, DONE, 0x41, 0x43}, {0x2003, NOT_THERE});
    GIVES(LOOKUPS_FROM(0x40, LIST, little(4, 2), 20), 0, {0x41, CUT_SHORT}, {0x2001, CUT_SHORT});
    GIVES(LOOKUPS_FROM(0x40, S("\x01\x03\0\0"), big(4, 1), 0), 1, {0x41, DONE, 0x41, 0x43}, {0x42, DONE, 0x41, 0x43});
#undef LIST
    /* The whole range of addresses but the last. */
#define LIST S("\x07\0\0\0\0\0\0\0\0\xff\xff\xff\xff\xff\xff\xff\xff\xff\x01\0")
    GIVES(LOOKUPS(LIST, little(5, 8), 0), 1, {0, DONE, 0, MAX}, {MAX - 1, DONE, 0, MAX});
    GIVES(LOOKUPS(LIST, little(5, 8), 0), 2, {0, DONE, 0, MAX}, {MAX, NOT_THERE}, {MAX, NOT_THERE});
    for (version = 5; version <= 6; version++) {
        asking(ask_ranges, LIST, little((uint16_t)version, 8));
        asking(ask_ranges, LIST, big((uint16_t)version, 8));
    }
#undef LIST
    asking(ask_ranges, S("\0\0\0\0\0\0\0\0\xff\xff\xff\xff\xff\xff\xff\xff"), little(4, 8));
    memset(met, 0, sizeof met);
    for (version = 3; version <= 6; version++)
        any_lists(false, MAIN, (uint16_t)version);
    CHECK(met[0] > 100000 && met[1] > 100000 && met[2] > 100000);
}

#define LLOOKUPS(list, encoding, file_type, offset)                                                                  \
    yz_location_lookups(list, TABLE, 8, encoding, file_type, offset, 0x100, ASKED)

static yz_count ask_locations(SECTION, yz_encoding encoding, uint64_t offset) {
    return yz_location_lookups(section, section_len, NO_BYTES, 0, encoding, MAIN, offset, 0, ASKED);
}

static yz_count ask_split(SECTION, yz_encoding encoding, uint64_t offset) {
    return yz_location_lookups(section, section_len, NO_BYTES, 0, encoding, DWO, offset, 0, ASKED);
}

/* Whether any two of the addresses, each alone and all of them are answered in a list as its entries say. */
static bool order_is_for_several(const order *all, yz_encoding encoding, yz_file_type file_type) {
    const nine addresses = bounds_of(encoding);
    fields expected[BOUNDS];
    uint64_t read[BOUNDS];
    unsigned i, j, n;
    for (i = 0; i < BOUNDS; i++) {
        const uint64_t address = addresses.at[i];
        expected[i] = by_entries(all->answers, all->which, all->n, address);
        for (n = 0; n < all->n; n++) {
            const fields one = all->answers[n];
            if (all->which[n] == ENTRY_NO_KIND) break;
            if (one.at[0] == YZ_END || one.at[0] == YZ_REFUSED ||
                (one.at[0] == YZ_DONE && all->which[n] != ENTRY_DEFAULT && one.at[3] <= address && address < one.at[4])) {
                n++;
                break;
            }
        }
        read[i] = n;
    }
    for (i = 0; i < BOUNDS; i++)
        for (j = i; j <= BOUNDS; j++) {
            /* The i-th and the j-th, and at last from the i-th on all. */
            uint64_t most = 0;
            yz_count count;
            unsigned which[BOUNDS];
            ask_none();
            for (n = i; n < BOUNDS; n++)
                if (j == BOUNDS || n == i || n == j) which[asked_len++] = n;
            if (i == j) which[asked_len++] = i;
            for (n = 0; n < asked_len; n++) {
                asked[n] = addresses.at[which[n]];
                if (read[which[n]] > most) most = read[which[n]];
            }
            count = yz_location_lookups(made, made_len, NO_BYTES, 0, encoding, file_type, 0, 0x100, ASKED);
            if (count.result != YZ_DONE || count.refusal != YZ_NO_REFUSAL || count.refusal_value != 0 || count.count != most)
                return false;
            for (n = 0; n < asked_len; n++)
                if (!answer_is(n, expected[which[n]].at)) return false;
            if (!places_old_from(asked_len)) return false;
        }
    return true;
}

static void test_location_lookups(void) {
    uint16_t version;
    /* A default location, and another behind it. */
#define LIST S("\x05\x01\x50\x07\x10\0\0\0\x20\0\0\0\x01\x51\0")
#define BOUNDED DONE, 0x10, 0x20, 13, 1
    GIVES(LLOOKUPS(LIST, little(5, 4), MAIN, 0), 3, {0, BY_DEFAULT(2, 1)}, {0x10, BOUNDED}, {0x20, BY_DEFAULT(2, 1)},
          {MAX, NOT_THERE});
    GIVES(LLOOKUPS(LIST, little(5, 4), DWO, 0), 3, {0x0f, BY_DEFAULT(2, 1)}, {0x1f, BOUNDED}, {MAX - 1, BY_DEFAULT(2, 1)});
    GIVES(LLOOKUPS(LIST, little(5, 4), MAIN, 0), 2, {0x10, BOUNDED}, {0x10, BOUNDED}, {0x1f, BOUNDED});
    GIVES(LLOOKUPS(LIST, little(5, 4), MAIN, 3), 2, {0, NOT_THERE}, {0x10, BOUNDED});
    GIVES(LLOOKUPS(LIST, little(5, 4), MAIN, 3), 1, {0x10, BOUNDED});
    GIVES(LLOOKUPS(LIST, little(5, 4), MAIN, 14), 1, {0, NOT_THERE}, {0x10, NOT_THERE});
    GIVES(LLOOKUPS(LIST, little(5, 4), MAIN, 15), 0, {0, NOT_THERE}, {0x10, NOT_THERE});
    GIVES(LLOOKUPS(LIST, little(5, 4), MAIN, 16), 0, {0, CUT_SHORT}, {0x10, CUT_SHORT});
    GIVES(LLOOKUPS(LIST, little(5, 6), MAIN, 16), 0, {0, BAD_SIZE(6)}, {0x10, BAD_SIZE(6)});
    ask_none();
    LEAVES(LLOOKUPS(LIST, little(5, 4), MAIN, 0), DONE, 0);
    LEAVES(yz_location_lookups(LIST, TABLE, 8, little(5, 4), MAIN, 0, 0, NO_ADDRESSES), DONE, 0);
    LEAVES(yz_location_lookups(NO_BYTES, NO_BYTES, 0, little(5, 5), DWO, MAX, 0, NO_ADDRESSES), DONE, 0);
#undef LIST
    /* A kind that is none in place of the end mark. */
#define LIST S("\x05\x01\x50\x07\x10\0\0\0\x20\0\0\0\x01\x51\x09")
    GIVES(LLOOKUPS(LIST, little(5, 4), MAIN, 0), 2, {0, NO_KIND_9}, {0x10, BOUNDED});
    GIVES(LLOOKUPS(LIST, little(5, 4), MAIN, 0), 2, {0x10, BOUNDED});
    GIVES(LLOOKUPS(LIST, little(5, 4), MAIN, 0), 2, {0, NO_KIND_9}, {0x1f, BOUNDED}, {MAX, NO_KIND_9});
#undef LIST
    /* The section's end. */
#define LIST S("\x05\x01\x50\x07\x10\0\0\0\x20\0\0\0\x01\x51")
    GIVES(LLOOKUPS(LIST, little(5, 4), MAIN, 0), 2, {0, BY_DEFAULT(2, 1)}, {0x10, BOUNDED}, {MAX, NOT_THERE});
#undef BOUNDED
#undef LIST
    GIVES(LLOOKUPS(S("\x05\x01\x50\x05\x01\x52\0\xff"), little(5, 4), MAIN, 0), 3, {5, BY_DEFAULT(2, 1)}, {5, BY_DEFAULT(2, 1)},
          {MAX, NOT_THERE});
    GIVES(LLOOKUPS(S("\x05\x01\x50\x02\0\x02\x01\x51\0"), little(5, 4), MAIN, 0), 2, {5, CUT_SHORT}, {MAX, CUT_SHORT});
    GIVES(LLOOKUPS(S("\x09\x04\x01\x02\0\0"), little(5, 4), MAIN, 1), 1, {0x101, DONE, 0x101, 0x102, 5, 0});
    GIVES(LLOOKUPS(S("\0"), little(5, 5), MAIN, 0), 0, {1, BAD_SIZE(5)});
    GIVES(LLOOKUPS(S("\0"), little(5, 4), MAIN, 2), 0, {1, CUT_SHORT}, {2, CUT_SHORT});
    GIVES(LLOOKUPS(S("\0"), little(5, 4), MAIN, 0), 1, {5, NOT_THERE});
    /* The first of several that hold an address has its own expression. */
#define LIST S("\x08\x14\0\0\0\x04\x01\x50\x08\x10\0\0\0\x10\x01\x51\x09")
    GIVES(LLOOKUPS(LIST, little(5, 4), MAIN, 0), 2, {0x13, DONE, 0x10, 0x20, 15, 1}, {0x14, DONE, 0x14, 0x18, 7, 1},
          {0x17, DONE, 0x14, 0x18, 7, 1}, {0x18, DONE, 0x10, 0x20, 15, 1}, {0x20, NO_KIND_9});
#undef LIST
    /* Split lists before version 5, and bare pairs. */
#define LIST S("\x05\x01\0\x50\x03\0\x08\0\0\0\x01\0\x51\0")
    GIVES(LLOOKUPS(LIST, little(4, 4), DWO, 0), 3, {0x0f, BY_DEFAULT(3, 1)}, {0x10, DONE, 0x10, 0x18, 12, 1}, {MAX, NOT_THERE});
    GIVES(LLOOKUPS(LIST, little(3, 4), DWO, 0), 2, {0x10, DONE, 0x10, 0x18, 12, 1}, {0x17, DONE, 0x10, 0x18, 12, 1});
    GIVES(LLOOKUPS(LIST, little(4, 4), MAIN, 0), 1, {0x0f, CUT_SHORT}, {0x10, CUT_SHORT});
#undef LIST
#define LIST S("\x05\0\x08\0\x01\0\x50\xff\xff\0\x20\x05\0\x08\0\0\0\0\0\0\0")
    GIVES(LLOOKUPS(LIST, little(4, 2), MAIN, 0), 3, {0x107, DONE, 0x105, 0x108, 6, 1}, {0x2005, DONE, 0x2005, 0x2008, 17, 0});
    GIVES(LLOOKUPS(LIST, little(4, 2), MAIN, 0), 4, {0x104, NOT_THERE}, {0x107, DONE, 0x105, 0x108, 6, 1}, {0x2008, NOT_THERE});
    GIVES(LLOOKUPS(LIST, little(4, 2), DWO, 0), 0, {0x107, CUT_SHORT});
#undef LIST
#define LIST S("\x07\0\0\0\0\0\0\0\0\xff\xff\xff\xff\xff\xff\xff\xff\x01\x50\0")
    asking(ask_locations, LIST, little(5, 8));
    asking(ask_locations, LIST, big(6, 8));
    asking(ask_split, LIST, little(5, 8));
#undef LIST
#define LIST S("\x07\0\0\0\0\0\0\0\0\xff\xff\xff\xff\xff\xff\xff\xff\0\0\0")
    asking(ask_split, LIST, little(4, 8));
    asking(ask_split, LIST, big(3, 8));
#undef LIST
    asking(ask_locations, S("\0\0\0\0\0\0\0\0\xff\xff\xff\xff\xff\xff\xff\xff\0\0"), little(4, 8));
    orders_of_entries(order_is_for_several);
    memset(met, 0, sizeof met);
    for (version = 3; version <= 6; version++) {
        any_lists(true, MAIN, version);
        any_lists(true, DWO, version);
    }
    CHECK(met[0] > 200000 && met[1] > 200000 && met[2] > 200000);
}

/* ---- Marks ---- */

static yz_marks marks;

/* A walk and its marks, word for word. */
typedef struct marked {
    yz_walk walk;
    yz_marks marks;
} marked;

static marked now(void) {
    marked both;
    both.walk = walk;
    both.marks = marks;
    return both;
}

static bool same_walk(yz_walk other) { return memcmp(&walk, &other, sizeof walk) == 0; }
static bool is_now(marked both) { return same_walk(both.walk) && memcmp(&marks, &both.marks, sizeof marks) == 0; }

/* A setting: that mark is set to the walk, and all else stays. */
#define SETS(number)                                                                                                 \
    do {                                                                                                             \
        marked then = now();                                                                                         \
        IS(done, yz_mark_set(number, &walk, &marks), DONE);                                                          \
        then.marks.at[number].is_set = 1;                                                                            \
        then.marks.at[number].walk = then.walk;                                                                      \
        check(is_now(then), __LINE__, "set, and nothing else: " #number);                                            \
    } while (0)

/* A return: this is the walk, and all marks stay. */
#define RETURNS(number, at, base_address, entries, split)                                                            \
    do {                                                                                                             \
        marked then = now();                                                                                         \
        IS(done, yz_mark_return(number, &marks, &walk), DONE);                                                       \
        then.walk = walk;                                                                                            \
        check(walk_is(at, base_address, entries, split), __LINE__, "the walk of mark " #number);                     \
        check(is_now(then), __LINE__, "the marks stay: " #number);                                                   \
    } while (0)

/* A mark that is not there: walk and marks stay. */
#define NO_SUCH_MARK(call)                                                                                           \
    do {                                                                                                             \
        const marked then = now();                                                                                   \
        IS(done, call, REFUSED(YZ_NO_SUCH_MARK, 0));                                                                 \
        check(is_now(then), __LINE__, "untouched: " #call);                                                          \
    } while (0)
#define NO_SETTING(number) NO_SUCH_MARK(yz_mark_set(number, &walk, &marks))
#define NO_RETURN(number) NO_SUCH_MARK(yz_mark_return(number, &marks, &walk))

static void no_marks(void) { memset(&marks, 0, sizeof marks); }

/* A walk made by hand, of words that differ. */
static void walk_of(uint64_t n) {
    walk_from(n, n + 100, n + 300);
    walk.entries = n + 200;
}
#define RETURNS_WALK_OF(number, n) RETURNS(number, n, (n) + 100, (n) + 200, (n) + 300)

/* Numbers above 7; some are a mark's when they are cut to fewer bits, or times 8. */
static const uint64_t no_numbers[] = {
    8, 9, 15, 0x100, 0x10007, UINT64_C(1) << 32, (UINT64_C(1) << 32) + 7, TWO_TO_61, UINT64_C(1) << 63, MAX - 7, MAX,
};
#define NO_NUMBERS (sizeof no_numbers / sizeof *no_numbers)

static void test_mark_set(void) {
    uint64_t i;
    /* Each number, then again in place of what is there. */
    no_marks();
    for (i = 0; i < YZ_MARKS; i++) {
        walk_of(10 * i);
        SETS(i);
    }
    for (i = YZ_MARKS; i-- > 0;) {
        walk_of(1000 + 10 * i);
        SETS(i);
        SETS(i);
    }
    for (i = 0; i < NO_NUMBERS; i++)
        NO_SETTING(no_numbers[i]);
    no_marks();
    for (i = 0; i < NO_NUMBERS; i++)
        NO_SETTING(no_numbers[i]);
    /* Whatever the words were. */
    old(&marks, sizeof marks);
    SETS(5);
    NO_SETTING(8);
    /* Any walk. */
    walk_from(0, 0, 0);
    SETS(0);
    walk_from(MAX, MAX, MAX);
    walk.entries = MAX;
    SETS(7);
    old(&walk, sizeof walk);
    SETS(6);
}

/* Three ranges and the end mark, call by call. */
#define THREE S("\x07\x10\0\0\0\x01\x07\x20\0\0\0\x01\x07\x30\0\0\0\x01\0")
#define OPENS_THREE OPENS(yz_range_open(THREE, little(5, 4), 0, 0, &walk), 0, 0, 0)
#define NEXT_IS_10 NEXT(THREE, NO_BYTES, little(5, 4), 6, 0, 1, DONE, 0x10, 0x11)
#define NEXT_IS_20 NEXT(THREE, NO_BYTES, little(5, 4), 12, 0, 2, DONE, 0x20, 0x21)
#define NEXT_IS_30 NEXT(THREE, NO_BYTES, little(5, 4), 18, 0, 3, DONE, 0x30, 0x31)
#define NEXT_IS_END NEXT(THREE, NO_BYTES, little(5, 4), 19, 0, 4, END)

static void marks_of_three_ranges(void) {
    no_marks();
    OPENS_THREE;
    NEXT_IS_10;
    SETS(0);
    NEXT_IS_20;
    NEXT_IS_30;
    NEXT_IS_END;
    RETURNS(0, 6, 0, 1, 0);
    NEXT_IS_20;
    NEXT_IS_30;
    NEXT_IS_END;
    /* At the end there is a walk, too. */
    SETS(7);
    /* Two returns, and a setting of another mark between the calls. */
    RETURNS(0, 6, 0, 1, 0);
    NEXT_IS_20;
    SETS(1);
    RETURNS(0, 6, 0, 1, 0);
    RETURNS(0, 6, 0, 1, 0);
    RETURNS(1, 12, 0, 2, 0);
    NEXT_IS_30;
    RETURNS(7, 19, 0, 4, 0);
    NEXT_IS_END;
    RETURNS(0, 6, 0, 1, 0);
    NEXT_IS_20;
    /* A mark that was never set, with others that are. */
    no_marks();
    OPENS_THREE;
    SETS(4);
    NEXT_IS_10;
    SETS(6);
    NO_RETURN(5);
    NEXT_IS_20;
    /* A mark set again. */
    no_marks();
    OPENS_THREE;
    NEXT_IS_10;
    SETS(2);
    NEXT_IS_20;
    SETS(2);
    NEXT_IS_30;
    RETURNS(2, 12, 0, 2, 0);
    NEXT_IS_30;
    /* No mark has the number. */
    no_marks();
    OPENS_THREE;
    NEXT_IS_10;
    SETS(3);
    NEXT_IS_20;
    NO_SETTING(8);
    NO_RETURN(8);
    NO_SETTING(MAX);
    RETURNS(3, 6, 0, 1, 0);
    NEXT_IS_20;
    /* A list that is opened again, its marks made 0. */
    OPENS_THREE;
    no_marks();
    NO_RETURN(3);
    NEXT_IS_10;
    /* Raw entries, from the same walk. */
    SETS(0);
    STEP(raw_range, by->next_raw(THREE, little(5, 4), &walk), 12, 0, 2, DONE, YZ_RLE_START_LENGTH, 0x20, 1);
    NEXT_IS_30;
    RETURNS(0, 6, 0, 1, 0);
    STEP(raw_range, by->next_raw(THREE, little(5, 4), &walk), 12, 0, 2, DONE, YZ_RLE_START_LENGTH, 0x20, 1);
    /* A place past the section's end. */
    no_marks();
    walk_from(99, 0, 0);
    SETS(0);
    walk_from(0, 0, 0);
    RETURNS(0, 99, 0, 0, 0);
    NEXT(THREE, NO_BYTES, little(5, 4), 99, 0, 0, END);
}

static void marks_of_ranges(void) {
    const yz_range_entry other_base = range_entry(YZ_RLE_BASE_ADDRESS, 0x200, 0);
    marks_of_three_ranges();
    /* The base address is stored. */
#define LIST S("\x05\0\x10\0\0\x04\x01\x02\x05\0\x20\0\0\x04\x03\x04\0")
    no_marks();
    OPENS(yz_range_open(LIST, little(5, 4), 0, 0, &walk), 0, 0, 0);
    NEXT(LIST, TABLE, little(5, 4), 8, 0x1000, 2, DONE, 0x1001, 0x1002);
    SETS(7);
    NEXT(LIST, TABLE, little(5, 4), 16, 0x2000, 4, DONE, 0x2003, 0x2004);
    RETURNS(7, 8, 0x1000, 2, 0);
    NEXT(LIST, TABLE, little(5, 4), 16, 0x2000, 4, DONE, 0x2003, 0x2004);
#undef LIST
    /* Another one by a conversion between, and one that is stored. */
#define LIST S("\x04\x01\x02\x04\x03\x04\0")
#define CONVERT_BASE(at, entries)                                                                                    \
    STEP(range, yz_range_convert_raw(TABLE, 8, little(5, 4), other_base, &walk), at, 0x200, entries, COMES_TO_NOTHING)
    no_marks();
    OPENS(yz_range_open(LIST, little(5, 4), 0, 0x100, &walk), 0, 0x100, 0);
    SETS(1);
    CONVERT_BASE(0, 0);
    SETS(2);
    NEXT(LIST, TABLE, little(5, 4), 3, 0x200, 1, DONE, 0x201, 0x202);
    RETURNS(1, 0, 0x100, 0, 0);
    NEXT(LIST, TABLE, little(5, 4), 3, 0x100, 1, DONE, 0x101, 0x102);
    CONVERT_BASE(3, 1);
    NEXT(LIST, TABLE, little(5, 4), 6, 0x200, 2, DONE, 0x203, 0x204);
    RETURNS(1, 0, 0x100, 0, 0);
    CONVERT_BASE(0, 0);
    NEXT(LIST, TABLE, little(5, 4), 3, 0x200, 1, DONE, 0x201, 0x202);
    RETURNS(2, 0, 0x200, 0, 0);
    NEXT(LIST, TABLE, little(5, 4), 3, 0x200, 1, DONE, 0x201, 0x202);
#undef LIST
#undef CONVERT_BASE
    /* A failed lookup is met again. */
#define LIST S("\x02\0\x02\x03\0\x08\0")
    no_marks();
    OPENS(yz_range_open(LIST, little(5, 4), 0, 0, &walk), 0, 0, 0);
    SETS(0);
    NEXT(LIST, TABLE, little(5, 4), 3, 0, 1, CUT_SHORT);
    NEXT(LIST, TABLE, little(5, 4), 6, 0, 2, DONE, 0x10, 0x18);
    NEXT(LIST, TABLE, little(5, 4), 7, 0, 3, END);
    RETURNS(0, 0, 0, 0, 0);
    NEXT(LIST, TABLE, little(5, 4), 3, 0, 1, CUT_SHORT);
    NEXT(LIST, TABLE, little(5, 4), 6, 0, 2, DONE, 0x10, 0x18);
#undef LIST
    /* An emptied walk; and one before the entry that empties it. */
#define LIST S("\x07\x10\0\0\0\x01\x08\0")
    no_marks();
    OPENS(yz_range_open(LIST, little(5, 4), 0, 0, &walk), 0, 0, 0);
    NEXT(LIST, TABLE, little(5, 4), 6, 0, 1, DONE, 0x10, 0x11);
    SETS(0);
    NEXT(LIST, TABLE, little(5, 4), 8, 0, 1, REFUSED(YZ_UNKNOWN_RANGE_LISTS_ENTRY, 8));
    SETS(1);
    NEXT(LIST, TABLE, little(5, 4), 8, 0, 1, END);
    RETURNS(0, 6, 0, 1, 0);
    NEXT(LIST, TABLE, little(5, 4), 8, 0, 1, REFUSED(YZ_UNKNOWN_RANGE_LISTS_ENTRY, 8));
    RETURNS(1, 8, 0, 1, 0);
    NEXT(LIST, TABLE, little(5, 4), 8, 0, 1, END);
#undef LIST
    /* An address size that is not read: 6 is for the call that reads. */
    no_marks();
    walk_from(0, 0, 0);
    SETS(0);
    RETURNS(0, 0, 0, 0, 0);
    NEXT(S("\0"), TABLE, little(5, 5), 1, 0, 0, BAD_SIZE(5));
    SETS(1);
    RETURNS(0, 0, 0, 0, 0);
    NEXT(S("\0"), TABLE, little(5, 5), 1, 0, 0, BAD_SIZE(5));
    RETURNS(1, 1, 0, 0, 0);
    NEXT(S("\0"), TABLE, little(5, 5), 1, 0, 0, BAD_SIZE(5));
    /* Bare pairs, with counts handed in; the word for split lists is stored, too. */
#define LIST S("\xff\xff\0\x20\x01\0\x03\0\x05\0\x06\0\0\0\0\0")
    no_marks();
    ranges_from(0, 0);
    walk.entries = MAX - 2;
    NEXT(LIST, TABLE, little(4, 2), 8, 0x2000, MAX, DONE, 0x2001, 0x2003);
    SETS(3);
    NEXT(LIST, TABLE, little(4, 2), 12, 0x2000, MAX, DONE, 0x2005, 0x2006);
    walk_from(0, 0, 0);
    RETURNS(3, 8, 0x2000, MAX, OLD_WORD);
    NEXT(LIST, TABLE, little(4, 2), 12, 0x2000, MAX, DONE, 0x2005, 0x2006);
#undef LIST
}

static void marks_of_locations(void) {
    const yz_location_entry other_base = entry(YZ_LLE_BASE_ADDRESS, 0x200, 0);
    /* A plain list and a split one; each is left for the other. */
#define LIST S("\x08\x10\0\0\0\x01\x01\x50\x08\x20\0\0\0\x01\x01\x51\0")
#define SPLIT S("\x06\0\x10\0\0\x04\x01\x02\0\0\x04\x03\x03\0\0\x04\x05\x06\x01\0\x50\0")
    no_marks();
    OPENS(yz_location_open(LIST, little(5, 4), MAIN, 0, 0, &walk), 0, 0, 0);
    LNEXT(LIST, TABLE, little(5, 4), 8, 0, 1, DONE, 0x10, 0x11, 7, 1);
    SETS(0);
    LNEXT(LIST, TABLE, little(5, 4), 16, 0, 2, DONE, 0x20, 0x21, 15, 1);
    LNEXT(LIST, TABLE, little(5, 4), 17, 0, 3, END);
    RETURNS(0, 8, 0, 1, 0);
    LNEXT(LIST, TABLE, little(5, 4), 16, 0, 2, DONE, 0x20, 0x21, 15, 1);
    OPENS(yz_location_open(SPLIT, little(4, 4), DWO, 0, 0, &walk), 0, 0, 1);
    LNEXT(SPLIT, TABLE, little(4, 4), 10, 0x1000, 2, DONE, 0x1001, 0x1002, 10, 0);
    SETS(7);
    LNEXT(SPLIT, TABLE, little(4, 4), 21, 0x1000, 4, DONE, 0x1005, 0x1006, 20, 1);
    RETURNS(0, 8, 0, 1, 0);
    LNEXT(LIST, TABLE, little(5, 4), 16, 0, 2, DONE, 0x20, 0x21, 15, 1);
    RETURNS(7, 10, 0x1000, 2, 1);
    LNEXT(SPLIT, TABLE, little(4, 4), 21, 0x1000, 4, DONE, 0x1005, 0x1006, 20, 1);
    LNEXT(SPLIT, TABLE, little(4, 4), 22, 0x1000, 5, END);
#undef LIST
    /* Raw entries of the split list, and another base by a conversion between. */
    RETURNS(7, 10, 0x1000, 2, 1);
    STEP(raw_location, yz_location_next_raw(SPLIT, little(4, 4), &walk), 15, 0x1000, 3, DONE, YZ_LLE_OFFSET_PAIR, 3, 3, 15, 0);
    STEP(location, yz_location_convert_raw(TABLE, 8, little(4, 4), other_base, &walk), 15, 0x200, 3, COMES_TO_NOTHING);
    LNEXT(SPLIT, TABLE, little(4, 4), 21, 0x200, 4, DONE, 0x205, 0x206, 20, 1);
    RETURNS(7, 10, 0x1000, 2, 1);
    STEP(raw_location, yz_location_next_raw(SPLIT, little(4, 4), &walk), 15, 0x1000, 3, DONE, YZ_LLE_OFFSET_PAIR, 3, 3, 15, 0);
    LNEXT(SPLIT, TABLE, little(4, 4), 21, 0x1000, 4, DONE, 0x1005, 0x1006, 20, 1);
#undef SPLIT
    /* A failed lookup is met again, in a walk whose word for split lists is no 1. */
#define LIST S("\x03\x02\x08\0\0\0\0\0\x03\0\x08\0\0\0\x01\0\x50\0")
    no_marks();
    walk_from(0, 0, UINT64_C(1) << 32);
    SETS(4);
    LNEXT(LIST, TABLE, little(4, 4), 8, 0, 1, CUT_SHORT);
    LNEXT(LIST, TABLE, little(4, 4), 17, 0, 2, DONE, 0x10, 0x18, 16, 1);
    NO_RETURN(3);
    walk_from(0, 0, 0);
    RETURNS(4, 0, 0, 0, UINT64_C(1) << 32);
    LNEXT(LIST, TABLE, little(4, 4), 8, 0, 1, CUT_SHORT);
    LNEXT(LIST, TABLE, little(4, 4), 17, 0, 2, DONE, 0x10, 0x18, 16, 1);
#undef LIST
    /* An emptied walk, and an address size that is not read. */
    no_marks();
    OPENS(yz_location_open(S("\x09\0"), little(4, 4), DWO, 0, 0x100, &walk), 0, 0x100, 1);
    SETS(0);
    LNEXT(S("\x09\0"), TABLE, little(4, 4), 2, 0x100, 0, REFUSED(YZ_UNKNOWN_LOC_LISTS_ENTRY, 9));
    SETS(1);
    RETURNS(0, 0, 0x100, 0, 1);
    LNEXT(S("\x09\0"), TABLE, little(4, 5), 2, 0x100, 0, BAD_SIZE(5));
    RETURNS(0, 0, 0x100, 0, 1);
    LNEXT(S("\x09\0"), TABLE, little(4, 4), 2, 0x100, 0, REFUSED(YZ_UNKNOWN_LOC_LISTS_ENTRY, 9));
    RETURNS(1, 2, 0x100, 0, 1);
    LNEXT(S("\x09\0"), TABLE, little(4, 4), 2, 0x100, 0, END);
}

/* A setting before each of eight calls; then, from the last mark to the first, a return and the calls that followed: they
 * answer as they did, and leave the walk as they did. */
#define ANSWERS_AGAIN(type, call)                                                                                    \
    do {                                                                                                             \
        fields answers[YZ_MARKS];                                                                                    \
        yz_walk walks[YZ_MARKS];                                                                                     \
        uint64_t i, j;                                                                                               \
        no_marks();                                                                                                  \
        for (i = 0; i < YZ_MARKS; i++) {                                                                             \
            SETS(i);                                                                                                 \
            answers[i] = of_##type(call);                                                                            \
            walks[i] = walk;                                                                                         \
        }                                                                                                            \
        for (i = YZ_MARKS; i-- > 0;) {                                                                               \
            IS(done, yz_mark_return(i, &marks, &walk), DONE);                                                        \
            for (j = i; j < YZ_MARKS; j++) {                                                                         \
                same(of_##type(call), answers[j].at, __LINE__, #call);                                               \
                check(same_walk(walks[j]), __LINE__, "the walk after " #call);                                       \
            }                                                                                                        \
        }                                                                                                            \
    } while (0)

static void ranges_again(void) {
    /* Lookups that fail, entries that are skipped, a base, the end; the same entries raw. */
#define LIST S("\x02\0\x02\x03\x01\x08\x05\x20\0\0\0\x04\x01\x02\x04\x03\x03\x01\x07\x04\x05\x06\x01\x01\x04\x07\x08\0")
    ranges_from(0, 7);
    ANSWERS_AGAIN(range, by->next(LIST, TABLE, 8, little(5, 4), &walk));
    ranges_from(0, 7);
    ANSWERS_AGAIN(raw_range, by->next_raw(LIST, little(5, 4), &walk));
#undef LIST
    ranges_from(0, 7);
    ANSWERS_AGAIN(range, by->next(S("\x01\x03\xff\x20\x01\x03\x05\x06\x07"), NO_BYTES, 0, big(3, 1), &walk));
}

static void locations_again(void) {
#define LIST S("\x02\0\x02\0\x03\x01\x08\x01\x50\x06\x20\0\0\0\x04\x01\x02\0\x05\x01\x51\x01\x07\x04\x05\x06\0\x09")
    walk_from(0, 7, 0);
    ANSWERS_AGAIN(location, yz_location_next(LIST, TABLE, 8, little(5, 4), &walk));
    walk_from(0, 7, 1);
    ANSWERS_AGAIN(raw_location, yz_location_next_raw(LIST, little(5, 4), &walk));
#undef LIST
#define LIST S("\x03\x02\x08\0\0\0\0\0\x03\x01\x08\0\0\0\x01\0\x50\x06\x20\0\0\0\x04\x01\x02\0\0\x05\0\0\0")
    walk_from(0, 7, 1);
    ANSWERS_AGAIN(location, yz_location_next(LIST, TABLE, 8, little(4, 4), &walk));
    walk_from(0, 7, MAX);
    ANSWERS_AGAIN(raw_location, yz_location_next_raw(LIST, little(4, 4), &walk));
#undef LIST
    walk_from(0, 7, 0);
#define LIST S("\x01\x03\0\0\xff\x20\x01\x03\0\x01\x50\x05\x06\0\0\x07")
    ANSWERS_AGAIN(location, yz_location_next(LIST, NO_BYTES, 0, big(3, 1), &walk));
#undef LIST
}

static void test_mark_return(void) {
    const uint64_t set[] = {1, 2, 0x100, UINT64_C(1) << 32, UINT64_C(1) << 63, MAX};
    uint64_t i, j;
    /* None is set, whatever walks stand there. */
    no_marks();
    walk_of(5);
    for (i = 0; i < YZ_MARKS; i++)
        NO_RETURN(i);
    old(&marks, sizeof marks);
    for (i = 0; i < YZ_MARKS; i++)
        marks.at[i].is_set = 0;
    for (i = 0; i < YZ_MARKS; i++)
        NO_RETURN(i);
    /* One is set. */
    for (i = 0; i < YZ_MARKS; i++) {
        no_marks();
        walk_of(10 * i);
        SETS(i);
        walk_of(5);
        for (j = 0; j < YZ_MARKS; j++)
            if (j != i)
                NO_RETURN(j);
        RETURNS_WALK_OF(i, 10 * i);
    }
    /* All are set. */
    for (i = 0; i < YZ_MARKS; i++) {
        walk_of(10 * i);
        SETS(i);
    }
    for (i = 0; i < NO_NUMBERS; i++)
        NO_RETURN(no_numbers[i]);
    for (i = YZ_MARKS; i-- > 0;)
        RETURNS_WALK_OF(i, 10 * i);
    /* By any word but 0. */
    for (i = 0; i < sizeof set / sizeof *set; i++) {
        marks.at[i].is_set = set[i];
        RETURNS_WALK_OF(i, 10 * i);
    }
    marks.at[7].is_set = 0;
    NO_RETURN(7);
    marks_of_ranges();
    marks_of_locations();
    ranges_again();
    locations_again();
}

/* ---- The profile ---- */

#define PADDED_NUMBER REFUSED(YZ_PADDED_NUMBER, 0)
#define TOMBSTONE REFUSED(YZ_TOMBSTONE, 0)
#define BACKWARD REFUSED(YZ_BACKWARD_RANGE, 0)

/* A call on a walk. */
typedef fields walk_call(LIST_AND_TABLE, yz_walk *);
static fields range_next(LIST_AND_TABLE, yz_walk *w) { return of_range(by->next(section, section_len, LENT, w)); }
static fields range_in_profile(LIST_AND_TABLE, yz_walk *w) {
    return of_range(by->next_in_profile(section, section_len, LENT, w));
}
static fields location_next(LIST_AND_TABLE, yz_walk *w) {
    return of_location(yz_location_next(section, section_len, LENT, w));
}
static fields location_in_profile(LIST_AND_TABLE, yz_walk *w) {
    return of_location(yz_location_next_in_profile(section, section_len, LENT, w));
}

/* A row is what a call leaves of the walk, place, base address and entries, and then what it answers. */
#define TAKEN 10
typedef uint64_t taken[TAKEN];

/* Calls from the walk on: these rows, and then the end twice, which leaves the walk as it is. Then the walk is what it was. */
static void takes(walk_call *call, LIST_AND_TABLE, const taken *rows, size_t n, int line) {
    const yz_walk from = walk;
    const uint64_t end[FIELDS] = {END};
    size_t i;
    for (i = 0; i < n + 2; i++) {
        const uint64_t *row = rows[i < n ? i : n - 1];
        uint64_t expected[FIELDS] = {0};
        memcpy(expected, row + 3, (TAKEN - 3) * sizeof *row);
        same(call(section, section_len, LENT, &walk), i < n ? expected : end, line, "a call of a walk");
        check(walk_is(row[0], row[1], row[2], from.split), line, "the walk after a call");
    }
    walk = from;
}

#define TAKES(made, ...)                                                                                             \
    do {                                                                                                             \
        const taken rows[] = {__VA_ARGS__};                                                                          \
        const size_t n = sizeof rows / sizeof *rows;                                                                 \
        made;                                                                                                        \
    } while (0)
/* By the ordinary call, by the one in the profile, and by both. */
#define ORDINARY(list, table, encoding, ...)                                                                         \
    TAKES(takes(range_next, list, table, 8, encoding, rows, n, __LINE__), __VA_ARGS__)
#define IN_PROFILE(list, table, encoding, ...)                                                                       \
    TAKES(takes(range_in_profile, list, table, 8, encoding, rows, n, __LINE__), __VA_ARGS__)
#define EITHER_WAY(list, table, encoding, ...)                                                                       \
    TAKES((takes(range_next, list, table, 8, encoding, rows, n, __LINE__),                                           \
           takes(range_in_profile, list, table, 8, encoding, rows, n, __LINE__)), __VA_ARGS__)
#define LORDINARY(list, table, encoding, ...)                                                                        \
    TAKES(takes(location_next, list, table, 8, encoding, rows, n, __LINE__), __VA_ARGS__)
#define LIN_PROFILE(list, table, encoding, ...)                                                                      \
    TAKES(takes(location_in_profile, list, table, 8, encoding, rows, n, __LINE__), __VA_ARGS__)
#define LEITHER_WAY(list, table, encoding, ...)                                                                      \
    TAKES((takes(location_next, list, table, 8, encoding, rows, n, __LINE__),                                        \
           takes(location_in_profile, list, table, 8, encoding, rows, n, __LINE__)), __VA_ARGS__)
/* One call. */
#define PNEXT(list, table, encoding, at, base_address, entries, ...)                                                 \
    STEP(range, by->next_in_profile(list, table, 8, encoding, &walk), at, base_address, entries, __VA_ARGS__)
#define LPNEXT(list, table, encoding, at, base_address, entries, ...)                                                \
    STEP(location, yz_location_next_in_profile(list, table, 8, encoding, &walk), at, base_address, entries, __VA_ARGS__)

/* The scope's examples. */
static void ranges_in_profile(void) {
    ranges_from(0, 0x1000);
#define LIST S("\x04\x01\x82\0\0")
    IN_PROFILE(LIST, TABLE, little(5, 4), {5, 0x1000, 1, PADDED_NUMBER});
    ORDINARY(LIST, TABLE, little(5, 4), {4, 0x1000, 1, DONE, 0x1001, 0x1002}, {5, 0x1000, 2, END});
#undef LIST
    ranges_from(0, 0);
    /* Before the lookup, and without padding the lookup's own refusal. */
#define LIST S("\x01\x80\0\x07\x10\0\0\0\x01\0")
    IN_PROFILE(LIST, NO_BYTES, little(5, 4), {10, 0, 1, PADDED_NUMBER});
    ORDINARY(LIST, NO_BYTES, little(5, 4), {3, 0, 1, CUT_SHORT}, {9, 0, 2, DONE, 0x10, 0x11}, {10, 0, 3, END});
#undef LIST
    EITHER_WAY(S("\x01\0\x07\x10\0\0\0\x01\0"), NO_BYTES, little(5, 4), {2, 0, 1, CUT_SHORT},
               {8, 0, 2, DONE, 0x10, 0x11}, {9, 0, 3, END});
    /* A dead base is nothing by itself, but where an offset pair uses it. */
    IN_PROFILE(S("\x05\xfe\xff\xff\xff\x04\0\x01\0"), TABLE, little(5, 4), {9, 0xfffffffe, 2, TOMBSTONE});
    ORDINARY(S("\x05\xfe\xff\xff\xff\x04\0\x01\0"), TABLE, little(5, 4), {9, 0xfffffffe, 3, END});
    EITHER_WAY(S("\x05\xfe\xff\xff\xff\x07\x10\0\0\0\x01\0"), TABLE, little(5, 4), {11, 0xfffffffe, 2, DONE, 0x10, 0x11},
               {12, 0xfffffffe, 3, END});
    ranges_from(0, 0xfffffffe);
    IN_PROFILE(S("\x04\0\x01\0"), TABLE, little(5, 4), {4, 0xfffffffe, 1, TOMBSTONE});
    ORDINARY(S("\x04\0\x01\0"), TABLE, little(5, 4), {4, 0xfffffffe, 2, END});
    ranges_from(0, 0);
    /* A dead begin; an empty range there, too. */
    IN_PROFILE(S("\x06\xfe\xff\xff\xff\xff\xff\xff\xff\0"), TABLE, little(5, 4), {10, 0, 1, TOMBSTONE});
    ORDINARY(S("\x06\xfe\xff\xff\xff\xff\xff\xff\xff\0"), TABLE, little(5, 4), {10, 0, 2, END});
    IN_PROFILE(S("\x06\xfe\xff\xff\xff\xfe\xff\xff\xff\0"), TABLE, little(5, 4), {10, 0, 1, TOMBSTONE});
    ORDINARY(S("\x06\xfe\xff\xff\xff\xfe\xff\xff\xff\0"), TABLE, little(5, 4), {10, 0, 2, END});
    /* Backward, and empty. */
    IN_PROFILE(S("\x06\x20\0\0\0\x10\0\0\0\0"), TABLE, little(5, 4), {10, 0, 1, BACKWARD});
    ORDINARY(S("\x06\x20\0\0\0\x10\0\0\0\0"), TABLE, little(5, 4), {10, 0, 2, END});
    EITHER_WAY(S("\x06\x10\0\0\0\x10\0\0\0\x07\x10\0\0\0\x01\0"), TABLE, little(5, 4), {15, 0, 2, DONE, 0x10, 0x11},
               {16, 0, 3, END});
    IN_PROFILE(S("\x07\xf0\x20\0"), TABLE, little(5, 1), {4, 0, 1, BACKWARD});
    ORDINARY(S("\x07\xf0\x20\0"), TABLE, little(5, 1), {4, 0, 2, END});
    IN_PROFILE(S("\x02\x01\0\0"), TABLE, little(5, 4), {4, 0, 1, BACKWARD});
    ORDINARY(S("\x02\x01\0\0"), TABLE, little(5, 4), {4, 0, 2, END});
    EITHER_WAY(S("\x02\x02\0\x07\x10\0\0\0\x01\0"), TABLE, little(5, 4), {3, 0, 1, CUT_SHORT}, {9, 0, 2, DONE, 0x10, 0x11},
               {10, 0, 3, END});
    EITHER_WAY(S("\x04\x80"), TABLE, little(5, 4), {2, 0, 0, CUT_SHORT});
    /* Bare pairs. */
    IN_PROFILE(S("\xfe\xff\xfe\xff\0\0\0\0"), TABLE, little(4, 2), {8, 0, 1, TOMBSTONE});
    ORDINARY(S("\xfe\xff\xfe\xff\0\0\0\0"), TABLE, little(4, 2), {8, 0, 2, END});
    IN_PROFILE(S("\x03\0\x01\0\0\0\0\0"), TABLE, little(4, 2), {8, 0, 1, BACKWARD});
    ORDINARY(S("\x03\0\x01\0\0\0\0\0"), TABLE, little(4, 2), {8, 0, 2, END});
}

/* Which of the three comes first, and what comes before them. */
static void orders_in_profile(void) {
    ranges_from(0, 0);
    /* An entry that is not whole has no padding. */
    EITHER_WAY(S("\x04\x80\0"), TABLE, little(5, 4), {3, 0, 0, CUT_SHORT});
    EITHER_WAY(S("\x04\x80\0" NINE "\x02"), TABLE, little(5, 4), {13, 0, 0, REFUSED(YZ_BAD_UNSIGNED_LEB128, 0)});
    EITHER_WAY(S("\x08\x80\0"), TABLE, little(5, 4), {3, 0, 0, NO_CODE(8)});
    /* Padding before lookups that fail, by 1 and by 9. */
    IN_PROFILE(S("\x02\x81\0\x02\0"), TABLE, little(5, 4), {5, 0, 1, PADDED_NUMBER});
    IN_PROFILE(S("\x02\x02\x81\0\0"), TABLE, little(5, 4), {5, 0, 1, PADDED_NUMBER});
    IN_PROFILE(S("\x03" INDEX_2_61 "\x80\0\0"), TABLE, little(5, 8), {13, 0, 1, PADDED_NUMBER});
    EITHER_WAY(S("\x03" INDEX_2_61 "\0\0"), TABLE, little(5, 8), {11, 0, 1, TOO_FAR}, {12, 0, 2, END});
    /* Padding before a dead begin and a backward range. */
    IN_PROFILE(S("\x07\xfe\x80\0\0"), TABLE, little(5, 1), {5, 0, 1, PADDED_NUMBER});
    IN_PROFILE(S("\x04\x82\0\x01\0"), TABLE, little(5, 1), {5, 0, 1, PADDED_NUMBER});
    /* A dead begin is told when the end was looked up; row 2 is dead, and row 4 is none. */
#define DEAD_ROW S("\x0c\0\0\0\x05\0\x01\0\x10\x20\xfe\x05")
    EITHER_WAY(S("\x02\x02\x04\0"), DEAD_ROW, little(5, 1), {3, 0, 1, CUT_SHORT}, {4, 0, 2, END});
    IN_PROFILE(S("\x02\x02\x03\0"), DEAD_ROW, little(5, 1), {4, 0, 1, TOMBSTONE});
    IN_PROFILE(S("\x03\x02\0\0"), DEAD_ROW, little(5, 1), {4, 0, 1, TOMBSTONE});
    EITHER_WAY(S("\x02\x03\x02\0"), DEAD_ROW, little(5, 1), {3, 0, 1, DONE, 5, 0xfe}, {4, 0, 2, END});
    EITHER_WAY(S("\x01\x02\x01\0\x04\0\x01\0"), DEAD_ROW, little(5, 1), {7, 0x10, 3, DONE, 0x10, 0x11}, {8, 0x10, 4, END});
    IN_PROFILE(S("\x01\x02\x04\0\x01\0"), DEAD_ROW, little(5, 1), {6, 0xfe, 2, TOMBSTONE});
#undef DEAD_ROW
    /* 16 before 17. */
    IN_PROFILE(S("\x06\xff\x10\0"), TABLE, little(5, 1), {4, 0, 1, TOMBSTONE});
    ranges_from(0, 0xfe);
    IN_PROFILE(S("\x04\x05\x01\0"), TABLE, little(5, 1), {4, 0xfe, 1, TOMBSTONE});
    /* The base, not the sum that wraps; as it is, not cut to the size. */
    IN_PROFILE(S("\x04\x02\x03\0"), TABLE, little(5, 1), {4, 0xfe, 1, TOMBSTONE});
    ranges_from(0, 0x110);
    IN_PROFILE(S("\x04\x02\x03\0"), TABLE, little(5, 1), {4, 0x110, 1, TOMBSTONE});
    ORDINARY(S("\x04\x02\x03\0"), TABLE, little(5, 1), {4, 0x110, 2, END});
    EITHER_WAY(S("\x07\x10\x01\0"), TABLE, little(5, 1), {3, 0x110, 1, DONE, 0x10, 0x11}, {4, 0x110, 2, END});
    ranges_from(0, 0xfd);
    EITHER_WAY(S("\x04\0\x01\0"), TABLE, little(5, 1), {3, 0xfd, 1, DONE, 0xfd, 0xfe}, {4, 0xfd, 2, END});
    EITHER_WAY(S("\x04\x03\x02\0"), TABLE, little(5, 1), {3, 0xfd, 1, DONE, 0, 0xff}, {4, 0xfd, 2, END});
    IN_PROFILE(S("\x04\x01\x02\0"), TABLE, little(5, 1), {4, 0xfd, 1, TOMBSTONE});
    IN_PROFILE(S("\x04\x02\x05\0"), TABLE, little(5, 1), {4, 0xfd, 1, TOMBSTONE});
    IN_PROFILE(S("\x04\x05\x04\0"), TABLE, little(5, 1), {4, 0xfd, 1, BACKWARD});
    IN_PROFILE(S("\x04\0\x05\0"), TABLE, little(5, 1), {4, 0xfd, 1, BACKWARD});
    EITHER_WAY(S("\x04\x05\x05\x04\0\x01\0"), TABLE, little(5, 1), {6, 0xfd, 2, DONE, 0xfd, 0xfe}, {7, 0xfd, 3, END});
    /* The bound of each size, and one below it. */
    ranges_from(0, 0);
    EITHER_WAY(S("\x07\xfd\xff\x01\0"), TABLE, little(5, 2), {4, 0, 1, DONE, 0xfffd, 0xfffe}, {5, 0, 2, END});
    IN_PROFILE(S("\x07\xfe\xff\x01\0"), TABLE, little(5, 2), {5, 0, 1, TOMBSTONE});
    EITHER_WAY(S("\x07\xff\xff\xfd\x01\0"), TABLE, big(5, 3), {5, 0, 1, DONE, 0xfffffd, 0xfffffe}, {6, 0, 2, END});
    IN_PROFILE(S("\x07\xff\xff\xfe\x01\0"), TABLE, big(5, 3), {6, 0, 1, TOMBSTONE});
    EITHER_WAY(S("\x07\xfd\xff\xff\xff\xff\xff\xff\xff\x01\0"), TABLE, little(5, 8), {10, 0, 1, DONE, MAX - 2, MAX - 1},
               {11, 0, 2, END});
    IN_PROFILE(S("\x07\xfe\xff\xff\xff\xff\xff\xff\xff\x01\0"), TABLE, little(5, 8), {11, 0, 1, TOMBSTONE});
    ranges_from(0, MAX - 1);
    IN_PROFILE(S("\x04\x03\x04\0"), TABLE, little(5, 8), {4, MAX - 1, 1, TOMBSTONE});
    /* Bare pairs have a base that may be dead, and base selections that replace it. */
    ranges_from(0, 0x1fffe);
    IN_PROFILE(S("\x02\0\x03\0\0\0\0\0"), TABLE, little(4, 2), {8, 0x1fffe, 1, TOMBSTONE});
    IN_PROFILE(S("\xff\xff\xfe\xff\x02\0\x03\0\0\0\0\0"), TABLE, little(4, 2), {12, 0xfffe, 2, TOMBSTONE});
    EITHER_WAY(S("\xff\xff\xfe\xff\xff\xff\x10\0\x01\0\x02\0\0\0\0\0"), TABLE, little(4, 2), {12, 0x10, 3, DONE, 0x11, 0x12},
               {16, 0x10, 4, END});
    /* What stands behind one of the three is not read, and what stands before is answered. */
    ranges_from(1, 0);
#define LIST S("\x09\x07\x10\x01\x02\x09\0\x04\x02\x02\x04\x02\x01\x07\x20\x01\0")
    IN_PROFILE(LIST, TABLE, little(5, 1), {4, 0, 1, DONE, 0x10, 0x11}, {7, 0, 2, CUT_SHORT}, {17, 0, 4, BACKWARD});
    ORDINARY(LIST, TABLE, little(5, 1), {4, 0, 1, DONE, 0x10, 0x11}, {7, 0, 2, CUT_SHORT}, {16, 0, 5, DONE, 0x20, 0x21},
             {17, 0, 6, END});
#undef LIST
}

/* Any bytes, walks made by hand, and sizes that are not read. */
static void bad_input_in_profile(void) {
    static const uint8_t unread[] = {0, 5, 6, 7, 9, 16, 255};
    size_t i;
    for (i = 0; i < sizeof unread; i++) {
        const yz_encoding newer = little(5, unread[i]), older = big(4, unread[i]);
        ranges_from(0, 7);
        PNEXT(S("\x04\x81\0\x01"), TABLE, newer, 4, 7, 0, BAD_SIZE(unread[i]));
        PNEXT(S("\x04\x81\0\x01"), TABLE, newer, 4, 7, 0, BAD_SIZE(unread[i]));
        PNEXT(NO_BYTES, NO_BYTES, older, 0, 7, 0, BAD_SIZE(unread[i]));
        ranges_from(MAX, MAX);
        walk.entries = MAX;
        PNEXT(S("\x08"), TABLE, newer, 1, MAX, MAX, BAD_SIZE(unread[i]));
        walk_from(0, 7, 1);
        LPNEXT(S("\x05\x81\0\x50"), TABLE, older, 4, 7, 0, BAD_SIZE(unread[i]));
        LPNEXT(S("\x05\x81\0\x50"), TABLE, newer, 4, 7, 0, BAD_SIZE(unread[i]));
        walk_from(MAX, MAX, 0);
        walk.entries = MAX;
        LPNEXT(NO_BYTES, NO_BYTES, newer, 0, MAX, MAX, BAD_SIZE(unread[i]));
    }
    /* Places at the end, past it and far behind. */
#define LIST S("\x04\x02\x01\0")
    for (i = 4; i < 7; i++) {
        const uint64_t place = i < 6 ? i : MAX;
        ranges_from(place, 7);
        walk.entries = 9;
        EITHER_WAY(LIST, TABLE, little(5, 4), {place, 7, 9, END});
        EITHER_WAY(LIST, TABLE, little(4, 2), {place, 7, 9, END});
        LEITHER_WAY(LIST, TABLE, little(5, 4), {place, 7, 9, END});
    }
    ranges_from(3, 7);
    EITHER_WAY(LIST, TABLE, little(5, 4), {4, 7, 1, END});
    ranges_from(2, 7);
    EITHER_WAY(LIST, TABLE, little(5, 4), {4, 0x10, 1, END});
    /* The count stops at the largest. */
    ranges_from(0, 7);
    walk.entries = MAX - 1;
    IN_PROFILE(LIST, TABLE, little(5, 4), {4, 7, MAX, BACKWARD});
    walk.entries = MAX;
    IN_PROFILE(LIST, TABLE, little(5, 4), {4, 7, MAX, BACKWARD});
    IN_PROFILE(S("\x04\x81\0\x02"), TABLE, little(5, 4), {4, 7, MAX, PADDED_NUMBER});
    EITHER_WAY(S("\x04\x01\x02\0"), TABLE, little(5, 4), {3, 7, MAX, DONE, 8, 9}, {4, 7, MAX, END});
    ranges_from(0, MAX);
    walk.entries = MAX - 1;
    IN_PROFILE(LIST, TABLE, little(5, 4), {4, MAX, MAX, TOMBSTONE});
    IN_PROFILE(S("\x05\0\0\0\0\x04\x02\x01"), TABLE, little(5, 4), {8, 0, MAX, BACKWARD});
    walk_from(0, MAX, 0);
    walk.entries = MAX - 1;
    LIN_PROFILE(S("\x04\x02\x01\0"), TABLE, little(5, 4), {4, MAX, MAX, TOMBSTONE});
#undef LIST
    /* No bytes. */
    ranges_from(0, MAX);
    EITHER_WAY(NO_BYTES, NO_BYTES, little(5, 4), {0, MAX, 0, END});
    EITHER_WAY(NO_BYTES, NO_BYTES, big(4, 8), {0, MAX, 0, END});
    LEITHER_WAY(NO_BYTES, NO_BYTES, little(5, 1), {0, MAX, 0, END});
    EITHER_WAY(S(""), S(""), little(5, 4), {0, MAX, 0, END});
    /* A table that ends before its base, and one whose base is the largest. */
    ranges_from(0, 0);
    STEP(range, by->next_in_profile(S("\x01\0\0"), TABLE, 17, little(5, 4), &walk), 2, 0, 1, CUT_SHORT);
    STEP(range, by->next_in_profile(S("\x01\0\0"), TABLE, MAX, little(5, 4), &walk), 3, 0, 2, END);
    ranges_from(0, 0);
    STEP(range, by->next_in_profile(S("\x01\0\0"), TABLE, MAX, little(5, 4), &walk), 2, 0, 1, CUT_SHORT);
}

/* One walk by all calls in turn, and marks before each of the three. */
static void mixed_in_profile(void) {
#define LIST S("\x04\x81\0\x02\x04\x02\x01\x06\xfe\xff\x04\x03\x04\x04\x81\0\x03\0")
    const yz_encoding one = little(5, 1);
    ranges_from(0, 0x10);
    NEXT(LIST, TABLE, one, 4, 0x10, 1, DONE, 0x11, 0x12);
    STEP(raw_range, by->next_raw(LIST, one, &walk), 7, 0x10, 2, DONE, YZ_RLE_OFFSET_PAIR, 2, 1);
    PNEXT(LIST, TABLE, one, 18, 0x10, 3, TOMBSTONE);
    NEXT(LIST, TABLE, one, 18, 0x10, 3, END);
    STEP(raw_range, by->next_raw(LIST, one, &walk), 18, 0x10, 3, END);
    no_marks();
    ranges_from(0, 0x10);
    SETS(0);
    PNEXT(LIST, TABLE, one, 18, 0x10, 1, PADDED_NUMBER);
    SETS(1);
    PNEXT(LIST, TABLE, one, 18, 0x10, 1, END);
    RETURNS(0, 0, 0x10, 0, OLD_WORD);
    PNEXT(LIST, TABLE, one, 18, 0x10, 1, PADDED_NUMBER);
    RETURNS(1, 18, 0x10, 1, OLD_WORD);
    PNEXT(LIST, TABLE, one, 18, 0x10, 1, END);
    RETURNS(0, 0, 0x10, 0, OLD_WORD);
    NEXT(LIST, TABLE, one, 4, 0x10, 1, DONE, 0x11, 0x12);
    SETS(2);
    PNEXT(LIST, TABLE, one, 18, 0x10, 2, BACKWARD);
    RETURNS(2, 4, 0x10, 1, OLD_WORD);
    PNEXT(LIST, TABLE, one, 18, 0x10, 2, BACKWARD);
    RETURNS(2, 4, 0x10, 1, OLD_WORD);
    /* The ordinary call passes over two of the three. */
    NEXT(LIST, TABLE, one, 13, 0x10, 4, DONE, 0x13, 0x14);
    SETS(3);
    PNEXT(LIST, TABLE, one, 18, 0x10, 5, PADDED_NUMBER);
    RETURNS(3, 13, 0x10, 4, OLD_WORD);
    PNEXT(LIST, TABLE, one, 18, 0x10, 5, PADDED_NUMBER);
    RETURNS(3, 13, 0x10, 4, OLD_WORD);
    NEXT(LIST, TABLE, one, 17, 0x10, 5, DONE, 0x11, 0x13);
    PNEXT(LIST, TABLE, one, 18, 0x10, 6, END);
#undef LIST
    /* Another base address by a conversion between: it is the one that is dead, or no more. */
#define LIST S("\x04\x01\x02\x04\x03\x04\0")
    no_marks();
    ranges_from(0, 0x10);
    PNEXT(LIST, TABLE, one, 3, 0x10, 1, DONE, 0x11, 0x12);
    SETS(7);
    STEP(range, yz_range_convert_raw(TABLE, 8, one, range_entry(YZ_RLE_BASE_ADDRESS, 0xfe, 0), &walk), 3, 0xfe, 1,
         COMES_TO_NOTHING);
    PNEXT(LIST, TABLE, one, 7, 0xfe, 2, TOMBSTONE);
    RETURNS(7, 3, 0x10, 1, OLD_WORD);
    PNEXT(LIST, TABLE, one, 6, 0x10, 2, DONE, 0x13, 0x14);
    PNEXT(LIST, TABLE, one, 7, 0x10, 3, END);
#undef LIST
    ranges_from(0, 7);
#define LIST S("\x02\0\x02\x03\x01\x08\x05\x20\0\0\0\x04\x01\x02\x04\x03\x03\x01\x07\x04\x05\x06\x04\x07\x06\0")
    ANSWERS_AGAIN(range, by->next_in_profile(LIST, TABLE, 8, little(5, 4), &walk));
#undef LIST
    ranges_from(0, 7);
    ANSWERS_AGAIN(range, by->next_in_profile(S("\x01\x03\xff\x20\x01\x03\x05\x05\x05\x06\x07\x06"), NO_BYTES, 0, big(3, 1), &walk));
}

/* ---- The same by a plain reading of the bytes that are made, by docs/SCOPE.md alone ---- */

/* An entry as it is read. */
typedef struct plain {
    yz_refusal refusal;
    uint64_t value, kind, numbers[2];
    yz_part expression;
    bool ends, padded;
    size_t next;
} plain;

static bool has_kinds(const setting *in) {
    return in->encoding.version >= 5 || (in->locations && in->file_type == YZ_FILE_DWO);
}

/* A number of so many bytes. */
static uint64_t plain_fixed(const uint8_t *bytes, size_t width, yz_encoding encoding) {
    uint64_t number = 0;
    size_t i;
    for (i = 0; i < width; i++)
        number = number << 8 | bytes[encoding.big_endian != 0 ? i : width - 1 - i];
    return number;
}

static yz_refusal plain_leb128(size_t *at, uint64_t *number, bool *padded) {
    unsigned n;
    *number = 0;
    for (n = 0; *at < made_len; n++) {
        const uint8_t byte = made[(*at)++];
        if (n == 9 && byte > 1) return YZ_BAD_UNSIGNED_LEB128;
        *number |= (uint64_t)(byte & 0x7f) << 7 * n;
        if (byte > 0x7f) continue;
        if (n > 0 && byte == 0) *padded = true;
        return YZ_NO_REFUSAL;
    }
    return YZ_UNEXPECTED_EOF;
}

static plain plain_entry(const setting *in, size_t at) {
    const uint8_t size = in->encoding.address_size;
    const char *operand;
    size_t n = 0;
    plain e;
    memset(&e, 0, sizeof e);
    if (has_kinds(in)) {
        e.kind = made[at++];
        e.ends = e.kind == 0;
        if (e.ends) return e;
        if (e.kind > (in->locations ? 8 : 7)) {
            e.refusal = in->locations ? YZ_UNKNOWN_LOC_LISTS_ENTRY : YZ_UNKNOWN_RANGE_LISTS_ENTRY;
            e.value = e.kind;
            return e;
        }
    }
    for (operand = (in->locations ? location_operands : range_operands)[e.kind]; *operand != 0; operand++) {
        const size_t width = *operand == 'a' ? size : *operand == 'x' ? 2 : 4;
        uint64_t number = 0;
        if (is_leb128(*operand, in->encoding.version)) {
            e.refusal = plain_leb128(&at, &number, &e.padded);
        } else if (made_len - at < width) {
            e.refusal = YZ_UNEXPECTED_EOF;
        } else {
            number = plain_fixed(made + at, width, in->encoding);
            at += width;
        }
        if (e.refusal == YZ_NO_REFUSAL && *operand == 'x') {
            e.expression = part(at, number);
            if (number > made_len - at) e.refusal = YZ_UNEXPECTED_EOF;
            at += number;
        } else {
            e.numbers[n++ % 2] = number;
        }
        if (e.refusal != YZ_NO_REFUSAL) return e;
        if (has_kinds(in) || n != 2) continue;
        /* A bare pair is the end mark or a base selection, too. */
        e.ends = (e.numbers[0] | e.numbers[1]) == 0;
        if (e.ends) return e;
        if (e.numbers[0] != MAX >> (64 - 8 * size)) continue;
        e.kind = in->locations ? (uint64_t)YZ_LLE_BASE_ADDRESS : (uint64_t)YZ_RLE_BASE_ADDRESS;
        e.numbers[0] = e.numbers[1];
        break;
    }
    e.next = at;
    return e;
}

/* An address of the four rows. */
static yz_refusal plain_row(const setting *in, uint64_t index, uint64_t *address) {
    const uint8_t size = in->encoding.address_size;
    if (index > MAX / size) return YZ_UNSUPPORTED_OFFSET;
    if (index > 3) return YZ_UNEXPECTED_EOF;
    *address = plain_fixed(four_rows + 8 + index * size, size, in->encoding);
    return YZ_NO_REFUSAL;
}

/* What a call answers and leaves, in the profile or not. */
static fields plain_next(const setting *in, bool in_profile, yz_walk *w) {
    const uint8_t size = in->encoding.address_size;
    const uint64_t ones = MAX >> (64 - 8 * size);
    while (w->at < made_len) {
        const plain e = plain_entry(in, w->at);
        /* A location's kind as a range's; a default location is by itself. */
        const bool by_default = in->locations && e.kind == YZ_LLE_DEFAULT_LOCATION;
        const uint64_t kind = e.kind - (in->locations && e.kind > YZ_LLE_DEFAULT_LOCATION);
        const bool is_pair = kind == 0 || kind == 4;
        uint64_t begin = e.numbers[0], end = e.numbers[1];
        yz_refusal refusal = e.refusal;
        bool dead;
        w->at = made_len;
        if (refusal != YZ_NO_REFUSAL) return fields_of(YZ_REFUSED, refusal, e.value);
        if (w->entries != MAX) w->entries++;
        if (e.ends) return fields_of(YZ_END, YZ_NO_REFUSAL, 0);
        if (in_profile && e.padded) return fields_of(YZ_REFUSED, YZ_PADDED_NUMBER, 0);
        if (kind >= 1 && kind <= 3) refusal = plain_row(in, e.numbers[0], &begin);
        if (kind == 2 && refusal == YZ_NO_REFUSAL) refusal = plain_row(in, e.numbers[1], &end);
        if (refusal != YZ_NO_REFUSAL) {
            w->at = e.next;
            return fields_of(YZ_REFUSED, refusal, 0);
        }
        if (!by_default && (kind == 1 || kind == 5)) {
            w->at = e.next;
            w->base_address = begin;
            continue;
        }
        if (kind == 3 || kind == 7) end = (begin + e.numbers[1]) & ones;
        if (is_pair) {
            begin = (w->base_address + e.numbers[0]) & ones;
            end = (w->base_address + e.numbers[1]) & ones;
        }
        if (by_default) {
            begin = 0;
            end = MAX;
        }
        dead = begin >= ones - 1 || (is_pair && w->base_address >= ones - 1);
        if (in_profile && dead) return fields_of(YZ_REFUSED, YZ_TOMBSTONE, 0);
        if (in_profile && begin > end) return fields_of(YZ_REFUSED, YZ_BACKWARD_RANGE, 0);
        w->at = e.next;
        if (!dead && begin < end) {
            fields item = fields_of(YZ_DONE, YZ_NO_REFUSAL, 0);
            item.at[3] = begin;
            item.at[4] = end;
            item.at[5] = e.expression.offset;
            item.at[6] = e.expression.length;
            return item;
        }
    }
    return fields_of(YZ_END, YZ_NO_REFUSAL, 0);
}

/* How often calls in the profile were done and refused, by the refusal's number. */
static uint64_t told[YZ_DESCENDING_ADDRESSES + 1];

/* Whether the calls on the bytes made answer and leave the walk as the plain reading has it, to the end and twice more: all in the
 * profile, none, or some. They write nothing else: not the bytes, nor those around them and around the walk. */
static bool as_plain(const setting *in, uint64_t entries, unsigned how) {
    static uint8_t before[sizeof made];
    struct { uint64_t ahead; yz_walk walk; uint64_t behind; } own;
    walk_call *const ordinary = in->locations ? location_next : range_next;
    walk_call *const profile = in->locations ? location_in_profile : range_in_profile;
    uint8_t rows[sizeof four_rows];
    yz_walk expected;
    unsigned ends = 0;
    memcpy(before, made, made_len + 16);
    memcpy(rows, four_rows, sizeof rows);
    walk_from(in->offset, in->base_address, in->file_type == YZ_FILE_DWO);
    walk.entries = entries;
    expected = own.walk = walk;
    own.ahead = own.behind = OLD_WORD;
    while (ends < 3) {
        const bool in_profile = how == 0 || (how == 2 && below(2) == 0);
        const fields got = (in_profile ? profile : ordinary)(LENT_LIST, &own.walk);
        const fields plainly = plain_next(in, in_profile, &expected);
        if (memcmp(&got, &plainly, sizeof got) != 0 || memcmp(&own.walk, &expected, sizeof expected) != 0) return false;
        if (plainly.at[0] == YZ_END)
            ends++;
        else if (in_profile)
            told[plainly.at[1]]++;
    }
    return own.ahead == OLD_WORD && own.behind == OLD_WORD && memcmp(before, made, made_len + 16) == 0 &&
           memcmp(rows, four_rows, sizeof rows) == 0;
}

/* An address that is small, so that ranges are often empty or backward, or one around the bound. */
static uint64_t edge(const setting *in) {
    const uint64_t ones = MAX >> (64 - 8 * in->encoding.address_size);
    return below(6) == 0 ? ones - below(4) : below(6);
}

/* The same as put_list, but of entries that break the profile: few of a list that is careful, and many of another. */
static void put_careless(setting *in) {
    const uint64_t careful = 1 + below(30), most = below(12), size = in->encoding.address_size;
    uint64_t n, i;
    made_len = 0;
    for (i = 0; i < 4; i++)
        put_address(below(careful) == 0 ? edge(in) : 2 * i, in->encoding);
    memcpy(four_rows + 8, made, made_len);
    made_len = 0;
    for (i = below(3); i > 0; i--)
        put((uint8_t)below(256));
    in->offset = made_len;
    in->base_address = below(careful) == 0 ? edge(in) : below(6);
    if (below(4) == 0 && size < 8) in->base_address |= below(2) << 8 * size;
    for (n = 0; n < most; n++) {
        const bool is_base = !has_kinds(in) && below(6) == 0;
        const uint64_t kind = has_kinds(in) ? 1 + below(in->locations ? 8 : 7) : 0;
        const uint64_t first = below(careful) == 0 ? edge(in) : below(6);
        const char *operand = (in->locations ? location_operands : range_operands)[kind];
        unsigned which = 0;
        if (kind != 0) put((uint8_t)kind);
        for (; *operand != 0; operand++, which++) {
            uint64_t number = which == 0 ? first : below(careful) == 0 ? edge(in) : first + below(4);
            if (kind >= 1 && kind <= 3 && *operand == 'n') number = below(20) == 0 ? below(7) : below(4);
            if (below(60) == 0) number = MAX - below(3);
            if (is_base && which == 0) number = MAX;
            if (*operand == 'x' && is_base) break;
            if (*operand == 'x') number = below(3);
            if (*operand == 'a')
                put_address(number, in->encoding);
            else if (is_leb128(*operand, in->encoding.version))
                put_uleb128(number, number < MAX >> 8 && below(2 * careful) == 0 ? 1 + (unsigned)below(2) : 0);
            else
                put_address(number, encoded(4, *operand == 'x' ? 2 : 4, false, in->encoding.big_endian));
            for (; *operand == 'x' && number > 0; number--)
                put((uint8_t)below(256));
        }
    }
    n = below(4);
    for (i = n != 0 ? 0 : has_kinds(in) ? 1 : 2 * size; i > 0; i--)
        put(0);
    if (n == 1) put(below(2) == 0 ? 9 : 0xff);
    if (n == 2 && made_len > in->offset) made_len = in->offset + below(made_len - in->offset);
    /* What stands behind would be read on as a number that is padded. */
    memset(made + made_len, 0x80, 8);
    memset(made + made_len + 8, 0, 8);
}

/* A setting's place in what is printed. */
static void not_plain(const setting *in, unsigned list, unsigned how) {
    printf("test.c: version %u, locations %u, split %u, size %u, big endian %u, list %u, way %u: not so\n", in->encoding.version,
           in->locations, in->file_type == YZ_FILE_DWO, in->encoding.address_size, in->encoding.big_endian, list, how);
}

/* Lists of a version, of all sizes and in both orders. */
static void careless_lists(bool locations, yz_file_type file_type, uint16_t version) {
    static const uint8_t sizes[] = {1, 2, 3, 4, 8};
    unsigned i, big_endian, list, how;
    for (i = 0; i < sizeof sizes; i++)
        for (big_endian = 0; big_endian < 2; big_endian++) {
            setting in = {locations, file_type, encoded(version, sizes[i], false, big_endian), 0, 0};
            bool all = true;
            for (list = 0; all && list < 1000; list++) {
                put_careless(&in);
                for (how = 0; all && how < 3; how++) {
                    all = as_plain(&in, list % 16 == 0 ? MAX - below(4) : list % 4, how);
                    if (!all) not_plain(&in, list, how);
                }
            }
            check(all, __LINE__, "the answers of a plain reading");
        }
}

/* Every list of up to four of some bytes, of size 1, from bases below the bound, at it and wider than the size. */
static void short_lists(bool locations, yz_file_type file_type, uint16_t version) {
    static const uint8_t bytes[] = {0, 1, 2, 3, 4, 5, 6, 7, 8, 0x80, 0x81, 0xfd, 0xfe, 0xff};
    static const uint64_t bases[] = {0, 0xfd, 0xfe, 0x1fd};
    setting in = {locations, file_type, little(version, 1), 0, 0};
    unsigned n, list, all = 1, b;
    bool plainly = true;
    memcpy(four_rows + 8, "\x03\xfe\xfd\x01", 4);
    for (n = 0; n <= 4; n++, all *= sizeof bytes)
        for (list = 0; plainly && list < all; list++) {
            unsigned rest = list, i;
            made_len = 0;
            for (i = 0; i < n; i++, rest /= sizeof bytes)
                put(bytes[rest % sizeof bytes]);
            for (b = 0; plainly && b < sizeof bases / sizeof *bases; b++) {
                in.base_address = bases[b];
                plainly = as_plain(&in, 0, 0) && as_plain(&in, 0, 1);
                if (!plainly) not_plain(&in, list, b);
            }
        }
    check(plainly, __LINE__, "the answers of a plain reading, for every short list");
}

/* Each of the answers was met often; a product above 2^64 is rare. */
static void all_told(void) {
    static const yz_refusal refusals[] = {
        YZ_NO_REFUSAL, YZ_UNEXPECTED_EOF, YZ_PADDED_NUMBER, YZ_TOMBSTONE, YZ_BACKWARD_RANGE,
    };
    size_t i;
    for (i = 0; i < sizeof refusals / sizeof *refusals; i++)
        CHECK(told[refusals[i]] > 4000);
    CHECK(told[YZ_UNSUPPORTED_OFFSET] > 400);
}

static void test_range_next_in_profile(void) {
    uint16_t version;
    ranges_in_profile();
    orders_in_profile();
    bad_input_in_profile();
    mixed_in_profile();
    memset(told, 0, sizeof told);
    for (version = 3; version <= 6; version++)
        careless_lists(false, MAIN, version);
    all_told();
    /* A supplier's codes are among the bytes of short lists. */
    if (by == &without_table || by == &by_dwarf)
        for (version = 4; version <= 5; version++)
            short_lists(false, MAIN, version);
}

static void locations_in_profile(void) {
    /* The scope's example: an expression's length is padded. */
    walk_from(0, 0, 0);
    LIN_PROFILE(S("\x05\x81\0\x50\0"), TABLE, little(5, 4), {5, 0, 1, PADDED_NUMBER});
    LORDINARY(S("\x05\x81\0\x50\0"), TABLE, little(5, 4), {4, 0, 1, DONE, 0, MAX, 3, 1}, {5, 0, 2, END});
    LIN_PROFILE(S("\x07\x10\x11\x81\0\x50\0"), TABLE, little(5, 1), {7, 0, 1, PADDED_NUMBER});
    LIN_PROFILE(S("\x02\0\x09\x80\0\0"), TABLE, little(5, 4), {6, 0, 1, PADDED_NUMBER});
    /* A default location is neither dead nor backward, at any base and of any size. */
    walk_from(0, MAX, 0);
    LEITHER_WAY(S("\x05\x01\x50\0"), TABLE, little(5, 8), {3, MAX, 1, DONE, 0, MAX, 2, 1}, {4, MAX, 2, END});
    LEITHER_WAY(S("\x05\x01\x50\0"), TABLE, little(5, 1), {3, MAX, 1, DONE, 0, MAX, 2, 1}, {4, MAX, 2, END});
    /* The scope's examples of ranges, as locations. */
    walk_from(0, 0x1000, 0);
    LIN_PROFILE(S("\x04\x01\x82\0\x01\x50\0"), TABLE, little(5, 4), {7, 0x1000, 1, PADDED_NUMBER});
    LORDINARY(S("\x04\x01\x82\0\x01\x50\0"), TABLE, little(5, 4), {6, 0x1000, 1, DONE, 0x1001, 0x1002, 5, 1},
              {7, 0x1000, 2, END});
    walk_from(0, 0, 0);
    LIN_PROFILE(S("\x01\x80\0\x08\x10\0\0\0\x01\0\0"), NO_BYTES, little(5, 4), {11, 0, 1, PADDED_NUMBER});
    LEITHER_WAY(S("\x01\0\x08\x10\0\0\0\x01\0\0"), NO_BYTES, little(5, 4), {2, 0, 1, CUT_SHORT},
                {9, 0, 2, DONE, 0x10, 0x11, 9, 0}, {10, 0, 3, END});
    LIN_PROFILE(S("\x06\xfe\xff\xff\xff\x04\0\x01\0\0"), TABLE, little(5, 4), {10, 0xfffffffe, 2, TOMBSTONE});
    LORDINARY(S("\x06\xfe\xff\xff\xff\x04\0\x01\0\0"), TABLE, little(5, 4), {10, 0xfffffffe, 3, END});
    LEITHER_WAY(S("\x06\xfe\xff\xff\xff\x08\x10\0\0\0\x01\0\0"), TABLE, little(5, 4),
                {12, 0xfffffffe, 2, DONE, 0x10, 0x11, 12, 0}, {13, 0xfffffffe, 3, END});
    LIN_PROFILE(S("\x07\xfe\xfe\0\0"), TABLE, little(5, 1), {5, 0, 1, TOMBSTONE});
    LIN_PROFILE(S("\x07\x20\x10\0\0"), TABLE, little(5, 1), {5, 0, 1, BACKWARD});
    LORDINARY(S("\x07\x20\x10\0\0"), TABLE, little(5, 1), {5, 0, 2, END});
    LEITHER_WAY(S("\x07\x10\x10\0\x08\x10\x01\0\0"), TABLE, little(5, 1), {8, 0, 2, DONE, 0x10, 0x11, 8, 0}, {9, 0, 3, END});
    LIN_PROFILE(S("\x08\xf0\x20\0\0"), TABLE, little(5, 1), {5, 0, 1, BACKWARD});
    LIN_PROFILE(S("\x02\x01\0\0\0"), TABLE, little(5, 4), {5, 0, 1, BACKWARD});
    LEITHER_WAY(S("\x02\x02\0\0\0"), TABLE, little(5, 4), {4, 0, 1, CUT_SHORT}, {5, 0, 2, END});
    /* An entry that is not whole: its expression is missing, or cut. */
    LEITHER_WAY(S("\x04\x80\0\x01"), TABLE, little(5, 4), {4, 0, 0, CUT_SHORT});
    LEITHER_WAY(S("\x04\x80\0\x01\x01"), TABLE, little(5, 4), {5, 0, 0, CUT_SHORT});
    LEITHER_WAY(S("\x05\x82\0\x50"), TABLE, little(5, 4), {4, 0, 0, CUT_SHORT});
    LEITHER_WAY(S("\x09\x80\0"), TABLE, little(5, 4), {3, 0, 0, NO_KIND_9});
    /* Bare pairs. */
    LIN_PROFILE(S("\xfe\xfe\0\0\0\0"), TABLE, little(4, 1), {6, 0, 1, TOMBSTONE});
    LIN_PROFILE(S("\x03\x01\0\0\0\0"), TABLE, little(4, 1), {6, 0, 1, BACKWARD});
    LORDINARY(S("\x03\x01\0\0\0\0"), TABLE, little(4, 1), {6, 0, 2, END});
    LEITHER_WAY(S("\xff\xfe\xff\x10\x01\x02\x01\0\x50\0\0"), TABLE, little(4, 1), {9, 0x10, 3, DONE, 0x11, 0x12, 8, 1},
                {11, 0x10, 4, END});
    /* Split lists before version 5: of four bytes and of two a length is not LEB128. */
    walk_from(0, 0, 1);
    LEITHER_WAY(S("\x03\0\x80\0\0\0\x01\0\x50\0"), TABLE, little(4, 4), {9, 0, 1, DONE, 0x10, 0x90, 8, 1}, {10, 0, 2, END});
    LIN_PROFILE(S("\x03\x80\0\x80\0\0\0\x01\0\x50\0"), TABLE, little(4, 4), {11, 0, 1, PADDED_NUMBER});
    LIN_PROFILE(S("\x04\x02\x01\0\0\0"), TABLE, little(4, 4), {6, 0, 1, BACKWARD});
    walk.split = OLD_WORD;
    LIN_PROFILE(S("\x04\x02\x01\0\0\0"), TABLE, little(4, 4), {6, 0, 1, BACKWARD});
    walk.split = UINT64_C(1) << 32;
    LIN_PROFILE(S("\x06\xfe\xff\xff\xff\x04\x02\x01\0\0\0"), TABLE, little(4, 4), {11, 0xfffffffe, 2, TOMBSTONE});
    walk.split = 0;
    LEITHER_WAY(S("\x04\x02\x01\0\0\0"), TABLE, little(4, 4), {6, 0, 0, CUT_SHORT});
}

static void test_location_next_in_profile(void) {
#define LIST S("\x05\x81\0\x50\x04\x02\x01\0\x07\xfe\xff\0\x04\x03\x04\x01\x51\0")
    uint16_t version;
    locations_in_profile();
    /* One walk by all calls in turn, and marks before each of the three. */
    no_marks();
    walk_from(0, 0x10, 0);
    SETS(0);
    LPNEXT(LIST, TABLE, little(5, 1), 18, 0x10, 1, PADDED_NUMBER);
    RETURNS(0, 0, 0x10, 0, 0);
    LPNEXT(LIST, TABLE, little(5, 1), 18, 0x10, 1, PADDED_NUMBER);
    RETURNS(0, 0, 0x10, 0, 0);
    LNEXT(LIST, TABLE, little(5, 1), 4, 0x10, 1, DONE, 0, MAX, 3, 1);
    SETS(1);
    LPNEXT(LIST, TABLE, little(5, 1), 18, 0x10, 2, BACKWARD);
    RETURNS(1, 4, 0x10, 1, 0);
    LPNEXT(LIST, TABLE, little(5, 1), 18, 0x10, 2, BACKWARD);
    RETURNS(1, 4, 0x10, 1, 0);
    STEP(raw_location, yz_location_next_raw(LIST, little(5, 1), &walk), 8, 0x10, 2, DONE, YZ_LLE_OFFSET_PAIR, 2, 1, 8, 0);
    SETS(2);
    LPNEXT(LIST, TABLE, little(5, 1), 18, 0x10, 3, TOMBSTONE);
    RETURNS(2, 8, 0x10, 2, 0);
    LPNEXT(LIST, TABLE, little(5, 1), 18, 0x10, 3, TOMBSTONE);
    LNEXT(LIST, TABLE, little(5, 1), 18, 0x10, 3, END);
    RETURNS(2, 8, 0x10, 2, 0);
    LNEXT(LIST, TABLE, little(5, 1), 17, 0x10, 4, DONE, 0x13, 0x14, 16, 1);
    LPNEXT(LIST, TABLE, little(5, 1), 18, 0x10, 5, END);
#undef LIST
#define LIST S("\x03\x02\x08\0\0\0\0\0\x03\x01\x08\0\0\0\x01\0\x50\x06\x20\0\0\0\x04\x01\x02\0\0\x04\x02\x01\0\0\0")
    walk_from(0, 7, 1);
    ANSWERS_AGAIN(location, yz_location_next_in_profile(LIST, TABLE, 8, little(4, 4), &walk));
#undef LIST
    memset(told, 0, sizeof told);
    for (version = 3; version <= 6; version++) {
        careless_lists(true, MAIN, version);
        careless_lists(true, DWO, version);
    }
    all_told();
    for (version = 4; version <= 5; version++) {
        short_lists(true, MAIN, version);
        short_lists(true, DWO, version);
    }
}

/* ---- Coverage ---- */

static yz_bounds begins, ends;

static bool zero_from(const yz_bounds *bounds, size_t n) {
    for (; n < YZ_LIMIT; n++)
        if (bounds->at[n] != 0)
            return false;
    return true;
}

static void age(void) {
    memset(&begins, OLD, sizeof begins);
    memset(&ends, OLD, sizeof ends);
}

/* A call that makes a coverage of n ranges, 0 past them. */
#define COVERS(call, n)                                                                                              \
    do {                                                                                                             \
        age();                                                                                                       \
        IS(count, call, DONE, n);                                                                                    \
        check(zero_from(&begins, n) && zero_from(&ends, n), __LINE__, "0 past the count: " #call);                   \
    } while (0)

#define REFUSES_COVERAGE(call, ...)                                                                                  \
    do {                                                                                                             \
        age();                                                                                                       \
        IS(count, call, __VA_ARGS__);                                                                                \
        check(all_old(&begins, sizeof begins) && all_old(&ends, sizeof ends), __LINE__, "untouched: " #call);        \
    } while (0)

static bool range_is(size_t i, uint64_t begin, uint64_t end) { return begins.at[i] == begin && ends.at[i] == end; }

/* n entries `07 begin 01` of address size 4, each begin a step above the one before, and a byte behind them. */
static uint8_t entries[6 * (YZ_LIMIT + 1) + 1];

static const uint8_t *make_entries(size_t n, size_t first, size_t step, uint8_t behind) {
    size_t i;
    for (i = 0; i < n; i++) {
        const size_t begin = first + step * i;
        const uint8_t entry[6] = {7, (uint8_t)begin, (uint8_t)(begin / 256), 0, 0, 1};
        memcpy(entries + 6 * i, entry, 6);
    }
    entries[6 * n] = behind;
    return entries;
}

/* Two apart, and without an end mark; and the scope's list for refusal 10, the same range n times, and a byte. */
#define APART(n) make_entries(n, 0, 2, 0), 6 * (n)
#define SAME(n, behind) make_entries(n, 0x10, 0, behind), 6 * (n) + 1
#define COVER(list, encoding, offset) by->coverage(list, TABLE, 8, encoding, offset, 0, &begins, &ends)

static void test_range_coverage(void) {
    COVERS(COVER(TOUCHING, little(5, 4), 0), 1);
    CHECK(range_is(0, 0x10, 0x30));
    COVERS(COVER(S("\x03\x01\x08\x03\0\x04\0"), little(5, 4), 0), 2);
    CHECK(range_is(0, 0x10, 0x14) && range_is(1, 0x20, 0x28));
    COVERS(COVER(NO_BYTES, little(5, 4), 0), 0);
    COVERS(COVER(S("\0"), little(5, 4), 1), 0);
    COVERS(COVER(APART(YZ_LIMIT), little(5, 4), 0), YZ_LIMIT);
    CHECK(range_is(0, 0, 1) && range_is(2999, 5998, 5999));
    COVERS(COVER(APART(1025), little(5, 4), 0), 1025);
    CHECK(range_is(0, 0, 1) && range_is(1024, 2048, 2049));
    COVERS(COVER(SAME(3000, 0), little(5, 4), 0), 1);
    CHECK(range_is(0, 0x10, 0x11));
    COVERS(by->coverage(S("\x09\x01\x03\0\0"), NO_BYTES, 0, big(4, 1), 1, 0x40, &begins, &ends), 1);
    CHECK(range_is(0, 0x41, 0x43));
    COVERS(COVER(S("\x07\x20\0\0\x10\x07\x10\0\0\x10\0"), little(5, 3), 0), 1);
    CHECK(range_is(0, 0x10, 0x30));
    COVERS(COVER(S("\x06\x01\x02\x03\x04\x05\x06\0"), little(5, 3), 0), 1);
    CHECK(range_is(0, 0x030201, 0x060504));
    COVERS(COVER(S("\x06\x01\x02\x03\x04\x05\x06\x07\0\0\x01\x01\0"), big(5, 3), 0), 2);
    CHECK(range_is(0, 1, 2) && range_is(1, 0x010203, 0x040506));
    COVERS(COVER(S("\x07\0\0\0\xff\xff\xff\x07\0"), little(5, 3), 0), 1);
    CHECK(range_is(0, 0, 0xffffff));
    COVERS(COVER(S("\x07\x01\0\0\xff\xff\xff\x07\0"), little(5, 3), 0), 0);
    COVERS(by->coverage(S("\x03\x01\x08\x03\0\x04\0"), TABLE_3, 8, little(5, 3), 0, 0, &begins, &ends), 2);
    CHECK(range_is(0, 0x10, 0x14) && range_is(1, 0x20, 0x28));
    COVERS(by->coverage(S("\0\0\x01\0\0\x03\0\0\0\0\0\0"), NO_BYTES, 0, big(4, 3), 0, 0xfffd, &begins, &ends), 1);
    CHECK(range_is(0, 0xfffe, 0x010000));
    REFUSES_COVERAGE(COVER(S("\x07\x20\0\0\x10\x06\x10\0"), little(5, 3), 0), CUT_SHORT);
    REFUSES_COVERAGE(COVER(NO_BYTES, little(5, 3), 1), CUT_SHORT);
    REFUSES_COVERAGE(COVER(APART(YZ_LIMIT + 1), little(5, 4), 0), TOO_MANY);
    REFUSES_COVERAGE(COVER(SAME(3001, 0), little(5, 4), 0), TOO_MANY);
    /* The first of the two. */
    REFUSES_COVERAGE(COVER(SAME(3000, 8), little(5, 4), 0), REFUSED(YZ_UNKNOWN_RANGE_LISTS_ENTRY, 8));
    REFUSES_COVERAGE(COVER(SAME(3001, 8), little(5, 4), 0), TOO_MANY);
    REFUSES_COVERAGE(COVER(S("\x07\x20\0\0\0\x10\x08"), little(5, 4), 0), REFUSED(YZ_UNKNOWN_RANGE_LISTS_ENTRY, 8));
    REFUSES_COVERAGE(COVER(S("\x07\x20\0\0\0\x10\x02\0\x02\0"), little(5, 4), 0), CUT_SHORT);
    REFUSES_COVERAGE(COVER(TOUCHING, little(5, 4), MAX), CUT_SHORT);
    REFUSES_COVERAGE(COVER(TOUCHING, little(5, 5), MAX), BAD_SIZE(5));
    REFUSES_COVERAGE(COVER(NO_BYTES, little(5, 4), 1), CUT_SHORT);
}

/* Two arrays with places past what a list may have; slices of them are lent. */
static uint64_t run_begins[YZ_LIMIT + 2], run_ends[YZ_LIMIT + 2];

static void age_runs(void) {
    memset(run_begins, OLD, sizeof run_begins);
    memset(run_ends, OLD, sizeof run_ends);
}

static bool runs_old_from(size_t n) {
    return all_old(run_begins + n, sizeof run_begins - 8 * n) && all_old(run_ends + n, sizeof run_ends - 8 * n);
}

static bool run_is(size_t i, uint64_t begin, uint64_t end) { return run_begins[i] == begin && run_ends[i] == end; }

/* A call that puts n ranges at the front, and leaves the places past them as they were. */
#define PUTS(call, n)                                                                                                \
    do {                                                                                                             \
        age_runs();                                                                                                  \
        IS(count, call, DONE, n);                                                                                    \
        check(runs_old_from(n), __LINE__, "untouched past the count: " #call);                                       \
    } while (0)

#define REFUSES_RUNS(call, ...)                                                                                      \
    do {                                                                                                             \
        age_runs();                                                                                                  \
        IS(count, call, __VA_ARGS__);                                                                                \
        check(runs_old_from(0), __LINE__, "untouched: " #call);                                                      \
    } while (0)

/* So many places of each. */
#define INTO(b, e) run_begins, b, run_ends, e
#define RUNS(list, encoding, offset, b, e) by->runs(list, TABLE, 8, encoding, offset, 0, INTO(b, e))

static void test_range_runs(void) {
    size_t b, e;
    PUTS(RUNS(TOUCHING, little(5, 4), 0, 1, 1), 1);
    CHECK(run_is(0, 0x10, 0x30));
    PUTS(RUNS(TOUCHING, little(5, 4), 0, 2, 2), 1);
    CHECK(run_is(0, 0x10, 0x30));
    REFUSES_RUNS(RUNS(TOUCHING, little(5, 4), 0, 0, 0), NO_ROOM);
    REFUSES_RUNS(by->runs(TOUCHING, NO_BYTES, 0, little(5, 4), 0, 0, NO_BYTES, NO_BYTES), NO_ROOM);
    /* Two ranges into slices of every two lengths. */
#define LIST S("\x03\x01\x08\x03\0\x04\0")
    for (b = 0; b < 5; b++)
        for (e = 0; e < 5; e++) {
            if (b < 2 || e < 2) {
                REFUSES_RUNS(RUNS(LIST, little(5, 4), 0, b, e), NO_ROOM);
                continue;
            }
            PUTS(RUNS(LIST, little(5, 4), 0, b, e), 2);
            CHECK(run_is(0, 0x10, 0x14) && run_is(1, 0x20, 0x28));
        }
    PUTS(RUNS(LIST, little(5, 4), 0, 2, YZ_LIMIT), 2);
    PUTS(RUNS(LIST, little(5, 4), 0, YZ_LIMIT, 2), 2);
    PUTS(by->runs(LIST, TABLE_3, 8, little(5, 3), 0, 0, INTO(2, 2)), 2);
    CHECK(run_is(0, 0x10, 0x14) && run_is(1, 0x20, 0x28));
#undef LIST
    /* No range needs no place. */
    PUTS(RUNS(NO_BYTES, little(5, 4), 0, 0, 0), 0);
    PUTS(RUNS(NO_BYTES, little(5, 4), 0, 3, 3), 0);
    PUTS(by->runs(S("\0"), NO_BYTES, 0, little(5, 4), 1, 0, NO_BYTES, NO_BYTES), 0);
    PUTS(by->runs(S("\x09\x01\x03\0\0"), NO_BYTES, 0, big(4, 1), 1, 0x40, INTO(1, 1)), 1);
    CHECK(run_is(0, 0x41, 0x43));
    PUTS(RUNS(S("\x06\x01\x02\x03\x04\x05\x06\x07\0\0\x01\x01\0"), big(5, 3), 0, 2, 2), 2);
    CHECK(run_is(0, 1, 2) && run_is(1, 0x010203, 0x040506));
    /* As many as short arrays have room for, one more, as many as the limit before, one more, and as many as may be. */
    {
        const size_t counts[] = {32, 33, 1024, 1025, 3000};
        size_t i;
        for (i = 0; i < sizeof counts / sizeof *counts; i++) {
            const size_t n = counts[i];
            PUTS(RUNS(APART(n), little(5, 4), 0, n, n), n);
            CHECK(run_is(0, 0, 1) && run_is(n - 1, 2 * n - 2, 2 * n - 1));
            PUTS(RUNS(APART(n), little(5, 4), 0, n + 1, n + 2), n);
            REFUSES_RUNS(RUNS(APART(n), little(5, 4), 0, n - 1, n), NO_ROOM);
            REFUSES_RUNS(RUNS(APART(n), little(5, 4), 0, n, n - 1), NO_ROOM);
            REFUSES_RUNS(RUNS(APART(n), little(5, 4), 0, 0, 0), NO_ROOM);
        }
    }
    PUTS(RUNS(SAME(3000, 0), little(5, 4), 0, 1, 1), 1);
    CHECK(run_is(0, 0x10, 0x11));
    REFUSES_RUNS(RUNS(SAME(3000, 0), little(5, 4), 0, 0, 0), NO_ROOM);
    /* 11 comes last: 10 and what a walk or its opening is refused with come before it, the first of them. */
    REFUSES_RUNS(RUNS(APART(3001), little(5, 4), 0, 3001, 3001), TOO_MANY);
    REFUSES_RUNS(RUNS(SAME(3001, 0), little(5, 4), 0, 1, 1), TOO_MANY);
    REFUSES_RUNS(RUNS(SAME(3001, 0), little(5, 4), 0, 0, 0), TOO_MANY);
    REFUSES_RUNS(RUNS(SAME(3000, 8), little(5, 4), 0, 0, 0), REFUSED(YZ_UNKNOWN_RANGE_LISTS_ENTRY, 8));
    REFUSES_RUNS(RUNS(SAME(3001, 8), little(5, 4), 0, 0, 0), TOO_MANY);
    REFUSES_RUNS(RUNS(S("\x07\x20\0\0\0\x10\x08"), little(5, 4), 0, 1, 1), REFUSED(YZ_UNKNOWN_RANGE_LISTS_ENTRY, 8));
    REFUSES_RUNS(RUNS(S("\x07\x20\0\0\0\x10\x08"), little(5, 4), 0, 0, 0), REFUSED(YZ_UNKNOWN_RANGE_LISTS_ENTRY, 8));
    REFUSES_RUNS(RUNS(S("\x07\x20\0\0\0\x10\x02\0\x02\0"), little(5, 4), 0, 0, 0), CUT_SHORT);
    REFUSES_RUNS(RUNS(S("\x03" INDEX_2_61 "\x08\0"), little(5, 8), 0, 0, 0), TOO_FAR);
    REFUSES_RUNS(RUNS(S("\x04" NINE "\x02"), little(5, 4), 0, 0, 0), REFUSED(YZ_BAD_UNSIGNED_LEB128, 0));
    REFUSES_RUNS(RUNS(TOUCHING, little(5, 4), MAX, 0, 0), CUT_SHORT);
    REFUSES_RUNS(RUNS(TOUCHING, little(5, 5), MAX, 0, 0), BAD_SIZE(5));
    REFUSES_RUNS(RUNS(NO_BYTES, little(5, 4), 1, 0, 0), CUT_SHORT);
}

#define LCOVER(list, encoding, file_type, offset)                                                                    \
    yz_location_coverage(list, TABLE, 8, encoding, file_type, offset, 0, &begins, &ends)

/* n default locations, and a byte behind them. */
static const uint8_t *make_defaults(size_t n, uint8_t behind) {
    static uint8_t defaults[2 * (YZ_LIMIT + 1) + 1];
    size_t i;
    for (i = 0; i < n; i++) {
        defaults[2 * i] = 5;
        defaults[2 * i + 1] = 0;
    }
    defaults[2 * n] = behind;
    return defaults;
}

#define DEFAULTS(n, behind) make_defaults(n, behind), 2 * (n) + 1

static void test_location_coverage(void) {
    COVERS(LCOVER(S("\x04\x01\x02\x01\x50\x04\x02\x04\x01\x51\x04\x06\x07\0\0"), little(5, 4), MAIN, 0), 2);
    CHECK(range_is(0, 1, 4) && range_is(1, 6, 7));
    COVERS(LCOVER(S("\x03\0\x08\0\0\0\x01\0\x50\0"), little(4, 4), DWO, 0), 1);
    CHECK(range_is(0, 0x10, 0x18));
    COVERS(LCOVER(DEFAULTS(3000, 0), little(5, 4), MAIN, 0), 1);
    CHECK(range_is(0, 0, MAX));
    COVERS(LCOVER(NO_BYTES, little(4, 4), MAIN, 0), 0);
    COVERS(yz_location_coverage(S("\x09\x04\x01\x02\0\0"), NO_BYTES, 0, little(5, 4), MAIN, 1, 0x100, &begins, &ends), 1);
    CHECK(range_is(0, 0x101, 0x102));
    COVERS(LCOVER(S("\x08\x20\0\0\x10\0\x07\x10\0\0\x20\0\0\x01\x50\0"), little(5, 3), MAIN, 0), 1);
    CHECK(range_is(0, 0x10, 0x30));
    COVERS(LCOVER(S("\x07\x01\x02\x03\x04\x05\x06\x01\x50\0"), little(5, 3), DWO, 0), 1);
    CHECK(range_is(0, 0x030201, 0x060504));
    COVERS(LCOVER(S("\x01\x02\x03\x04\x05\x06\0\x01\x50\0\0\0\0\0\0"), big(4, 3), MAIN, 0), 1);
    CHECK(range_is(0, 0x010203, 0x040506));
    COVERS(yz_location_coverage(S("\x03\0\x08\0\0\0\x01\0\x50\0"), TABLE_3, 8, little(4, 3), DWO, 0, 0, &begins, &ends), 1);
    CHECK(range_is(0, 0x10, 0x18));
    REFUSES_COVERAGE(LCOVER(S("\x07\x10\0"), little(5, 3), MAIN, 0), CUT_SHORT);
    REFUSES_COVERAGE(LCOVER(NO_BYTES, little(4, 3), DWO, 1), CUT_SHORT);
    REFUSES_COVERAGE(LCOVER(DEFAULTS(3001, 0), little(5, 4), MAIN, 0), TOO_MANY);
    REFUSES_COVERAGE(LCOVER(DEFAULTS(3000, 9), little(5, 4), MAIN, 0), REFUSED(YZ_UNKNOWN_LOC_LISTS_ENTRY, 9));
    REFUSES_COVERAGE(LCOVER(DEFAULTS(3001, 9), little(5, 4), MAIN, 0), TOO_MANY);
    REFUSES_COVERAGE(LCOVER(S("\x04\x01\x02\0\x09"), little(5, 4), MAIN, 0), REFUSED(YZ_UNKNOWN_LOC_LISTS_ENTRY, 9));
    REFUSES_COVERAGE(LCOVER(S("\x03\x02\x08\0\0\0\0\0"), little(4, 4), DWO, 0), CUT_SHORT);
    REFUSES_COVERAGE(LCOVER(S("\0"), little(5, 4), MAIN, MAX), CUT_SHORT);
    REFUSES_COVERAGE(LCOVER(S("\0"), little(5, 0), DWO, MAX), BAD_SIZE(0));
}

#define LRUNS(list, encoding, file_type, offset, b, e)                                                               \
    yz_location_runs(list, TABLE, 8, encoding, file_type, offset, 0, INTO(b, e))

static void test_location_runs(void) {
    size_t b, e;
#define LIST S("\x04\x01\x02\x01\x50\x04\x02\x04\x01\x51\x04\x06\x07\0\0")
    for (b = 0; b < 5; b++)
        for (e = 0; e < 5; e++) {
            if (b < 2 || e < 2) {
                REFUSES_RUNS(LRUNS(LIST, little(5, 4), MAIN, 0, b, e), NO_ROOM);
                continue;
            }
            PUTS(LRUNS(LIST, little(5, 4), MAIN, 0, b, e), 2);
            CHECK(run_is(0, 1, 4) && run_is(1, 6, 7));
        }
#undef LIST
    /* A list of a .dwo file, which is none of the main file. */
#define LIST S("\x03\0\x08\0\0\0\x01\0\x50\0")
    PUTS(LRUNS(LIST, little(4, 4), DWO, 0, 1, 1), 1);
    CHECK(run_is(0, 0x10, 0x18));
    PUTS(LRUNS(LIST, little(4, 4), DWO, 0, 2, 3), 1);
    PUTS(yz_location_runs(LIST, TABLE_3, 8, little(4, 3), DWO, 0, 0, INTO(1, 1)), 1);
    CHECK(run_is(0, 0x10, 0x18));
    REFUSES_RUNS(LRUNS(LIST, little(4, 4), DWO, 0, 0, 0), NO_ROOM);
    REFUSES_RUNS(LRUNS(LIST, little(4, 4), DWO, 0, 1, 0), NO_ROOM);
    REFUSES_RUNS(LRUNS(LIST, little(4, 4), DWO, 0, 0, 1), NO_ROOM);
    REFUSES_RUNS(LRUNS(LIST, little(4, 4), MAIN, 0, 1, 1), CUT_SHORT);
    REFUSES_RUNS(LRUNS(LIST, little(4, 7), DWO, MAX, 0, 0), BAD_SIZE(7));
#undef LIST
    PUTS(LRUNS(NO_BYTES, little(4, 4), MAIN, 0, 0, 0), 0);
    PUTS(yz_location_runs(S("\0"), NO_BYTES, 0, little(5, 4), DWO, 0, 0, NO_BYTES, NO_BYTES), 0);
    PUTS(yz_location_runs(S("\x09\x04\x01\x02\0\0"), NO_BYTES, 0, little(5, 4), MAIN, 1, 0x100, INTO(1, 1)), 1);
    CHECK(run_is(0, 0x101, 0x102));
    PUTS(LRUNS(S("\x01\x02\x03\x04\x05\x06\0\x01\x50\0\0\0\0\0\0"), big(4, 3), MAIN, 0, 1, 1), 1);
    CHECK(run_is(0, 0x010203, 0x040506));
    PUTS(LRUNS(DEFAULTS(3000, 0), little(5, 4), MAIN, 0, 1, 1), 1);
    CHECK(run_is(0, 0, MAX));
    REFUSES_RUNS(LRUNS(DEFAULTS(3000, 0), little(5, 4), MAIN, 0, 0, 0), NO_ROOM);
    REFUSES_RUNS(LRUNS(DEFAULTS(3001, 0), little(5, 4), MAIN, 0, 1, 1), TOO_MANY);
    REFUSES_RUNS(LRUNS(DEFAULTS(3001, 0), little(5, 4), MAIN, 0, 0, 0), TOO_MANY);
    REFUSES_RUNS(LRUNS(DEFAULTS(3000, 9), little(5, 4), MAIN, 0, 0, 0), REFUSED(YZ_UNKNOWN_LOC_LISTS_ENTRY, 9));
    REFUSES_RUNS(LRUNS(DEFAULTS(3001, 9), little(5, 4), MAIN, 0, 0, 0), TOO_MANY);
    REFUSES_RUNS(LRUNS(S("\x04\x01\x02\0\x09"), little(5, 4), MAIN, 0, 0, 0), REFUSED(YZ_UNKNOWN_LOC_LISTS_ENTRY, 9));
    REFUSES_RUNS(LRUNS(S("\x03\x02\x08\0\0\0\0\0"), little(4, 4), DWO, 0, 0, 0), CUT_SHORT);
    REFUSES_RUNS(LRUNS(S("\0"), little(5, 4), MAIN, MAX, 0, 0), CUT_SHORT);
    REFUSES_RUNS(LRUNS(NO_BYTES, little(4, 3), DWO, 1, 0, 0), CUT_SHORT);
}

#define FROM_CANONICAL(bytes) yz_coverage_from_canonical(bytes, &begins, &ends)

static void put_u64(uint8_t *at, uint64_t x) {
    size_t i;
    for (i = 0; i < 8; i++, x >>= 8)
        at[i] = (uint8_t)x;
}

/* The canonical list of n ranges of one address, each begin two above the one before, but for the last byte. */
static uint8_t listed[10 * (YZ_LIMIT + 1) + 1];

static const uint8_t *make_listed(size_t n, uint8_t behind) {
    size_t i;
    for (i = 0; i < n; i++) {
        listed[10 * i] = 7;
        put_u64(listed + 10 * i + 1, 2 * i);
        listed[10 * i + 9] = 1;
    }
    listed[10 * n] = behind;
    return listed;
}

#define LISTED(n, behind) make_listed(n, behind), 10 * (n) + 1

static void test_coverage_from_canonical(void) {
    COVERS(FROM_CANONICAL(S(TOUCHING_CANONICAL)), 1);
    CHECK(range_is(0, 0x10, 0x30));
    COVERS(FROM_CANONICAL(S("\0")), 0);
    COVERS(FROM_CANONICAL(NO_BYTES), 0);
    COVERS(FROM_CANONICAL(LISTED(1025, 0)), 1025);
    CHECK(range_is(0, 0, 1) && range_is(1024, 2048, 2049));
    COVERS(FROM_CANONICAL(LISTED(3000, 0)), 3000);
    CHECK(range_is(0, 0, 1) && range_is(2999, 5998, 5999));
    REFUSES_COVERAGE(FROM_CANONICAL(S("\x07\x10\0\0\0\0\0\0\0")), CUT_SHORT);
    REFUSES_COVERAGE(FROM_CANONICAL(S("\x03\0\x08\0")), CUT_SHORT);
    REFUSES_COVERAGE(FROM_CANONICAL(S("\x03" INDEX_2_61 "\0")), TOO_FAR);
    REFUSES_COVERAGE(FROM_CANONICAL(S("\x04" NINE "\x02")), REFUSED(YZ_BAD_UNSIGNED_LEB128, 0));
    REFUSES_COVERAGE(FROM_CANONICAL(S("\x08")), REFUSED(YZ_UNKNOWN_RANGE_LISTS_ENTRY, 8));
    REFUSES_COVERAGE(FROM_CANONICAL(LISTED(3001, 0)), TOO_MANY);
    REFUSES_COVERAGE(FROM_CANONICAL(LISTED(3000, 8)), REFUSED(YZ_UNKNOWN_RANGE_LISTS_ENTRY, 8));
    REFUSES_COVERAGE(FROM_CANONICAL(LISTED(3001, 8)), TOO_MANY);
}

/* A sheet of one range by its fields. */
static const uint8_t *one(uint8_t width, uint64_t begin, uint64_t end) {
    static uint8_t sheet[20];
    memset(sheet, 0, sizeof sheet);
    sheet[0] = 1;
    sheet[2] = width;
    put_u64(sheet + 4, begin);
    put_u64(sheet + 12, end);
    return sheet;
}

/* A sheet of n ranges of one address, each begin two above the one before. */
static uint8_t big_sheet[4 + 16 * (YZ_LIMIT + 1)];

static size_t make_big_sheet(size_t n) {
    size_t i;
    big_sheet[0] = (uint8_t)n;
    big_sheet[1] = (uint8_t)(n / 256);
    big_sheet[2] = 8;
    big_sheet[3] = 0;
    for (i = 0; i < n; i++) {
        put_u64(big_sheet + 4 + 8 * i, 2 * i);
        put_u64(big_sheet + 4 + 8 * (n + i), 2 * i + 1);
    }
    return 4 + 16 * n;
}

#define FROM_SHEET(...) yz_coverage_from_sheet(__VA_ARGS__, &begins, &ends)
#define BAD_SHEET(...) REFUSES_COVERAGE(FROM_SHEET(__VA_ARGS__), REFUSED(YZ_BAD_SHEET, 0))

static void test_coverage_from_sheet(void) {
    size_t len;
    COVERS(FROM_SHEET((const uint8_t *)TOUCHING_SHEET, 20), 1);
    CHECK(range_is(0, 0x10, 0x30));
    COVERS(FROM_SHEET(S("\0\0\x08\0")), 0);
    COVERS(FROM_SHEET(one(8, MAX - 2, MAX), 20), 1);
    CHECK(range_is(0, MAX - 2, MAX));
    /* A sheet as full as it could be before, and one range more. */
    len = make_big_sheet(1024);
    CHECK(len == 16388 && memcmp(big_sheet, "\0\x04\x08", 4) == 0);
    COVERS(FROM_SHEET(big_sheet, len), 1024);
    CHECK(range_is(0, 0, 1) && range_is(1023, 2046, 2047));
    len = make_big_sheet(1025);
    CHECK(len == 16404 && memcmp(big_sheet, "\x01\x04\x08", 4) == 0);
    COVERS(FROM_SHEET(big_sheet, len), 1025);
    CHECK(range_is(0, 0, 1) && range_is(1024, 2048, 2049));
    len = make_big_sheet(3000);
    CHECK(len == 48004 && memcmp(big_sheet, "\xb8\x0b\x08", 4) == 0);
    COVERS(FROM_SHEET(big_sheet, len), 3000);
    CHECK(range_is(0, 0, 1) && range_is(2999, 5998, 5999));
    BAD_SHEET(big_sheet, len - 1);
    put_u64(big_sheet + 4 + 8, 1);
    BAD_SHEET(big_sheet, len);
    len = make_big_sheet(3001);
    CHECK(len == 48020 && memcmp(big_sheet, "\xb9\x0b\x08", 4) == 0);
    BAD_SHEET(big_sheet, len);
    BAD_SHEET(NO_BYTES);
    BAD_SHEET(S("\x01\0\x08\0"));
    BAD_SHEET(S("\0\0\x08"));
    BAD_SHEET(S("\0\0\x08\0\0"));
    BAD_SHEET(S("\0\0\x04\0"));
    BAD_SHEET(one(4, 1, 2), 20);
    BAD_SHEET(one(8, 2, 2), 20);
    BAD_SHEET(one(8, 3, 2), 20);
    BAD_SHEET(one(8, MAX - 1, MAX), 20);
}

/* ---- Sheets and canonical lists ---- */

static uint8_t output[YZ_CANONICAL_MAX];

/* A call that writes these bytes into an output of len bytes, and nothing after them. */
#define WRITES(call, bytes, n)                                                                                       \
    do {                                                                                                             \
        memset(output, OLD, sizeof output);                                                                          \
        IS(count, call, DONE, n);                                                                                    \
        check(memcmp(output, bytes, n) == 0, __LINE__, "the bytes of " #call);                                       \
        check(all_old(output + (n), sizeof output - (n)), __LINE__, "untouched past the result: " #call);            \
    } while (0)

#define REFUSES_OUTPUT(call, ...)                                                                                    \
    do {                                                                                                             \
        memset(output, OLD, sizeof output);                                                                          \
        IS(count, call, __VA_ARGS__);                                                                                \
        check(all_old(output, sizeof output), __LINE__, "untouched: " #call);                                        \
    } while (0)

/* A coverage of two ranges; places past them are old. */
static void two_ranges(uint64_t a, uint64_t b, uint64_t c, uint64_t d) {
    age();
    begins.at[0] = a;
    ends.at[0] = b;
    begins.at[1] = c;
    ends.at[1] = d;
}

typedef yz_count writer(uint64_t, const yz_bounds *, const yz_bounds *, uint8_t *, size_t);

#define WRITE(n, len) write(n, &begins, &ends, output, len)
#define UNLAWFUL(n, len) REFUSES_OUTPUT(WRITE(n, len), REFUSED(YZ_BAD_SHEET, 0))

static void refuses_unlawful(writer *write) {
    two_ranges(2, 2, 0, 0);
    UNLAWFUL(1, 64);
    UNLAWFUL(1, 0);
    two_ranges(3, 2, 0, 0);
    UNLAWFUL(1, 64);
    two_ranges(0, 2, 2, 4);
    UNLAWFUL(2, 64);
    two_ranges(4, 5, 0, 1);
    UNLAWFUL(2, 64);
    two_ranges(MAX - 1, MAX, 0, 0);
    UNLAWFUL(1, 64);
    two_ranges(0x10, 0x30, 0x40, 0x50);
    UNLAWFUL(3, 64);
    UNLAWFUL(YZ_LIMIT + 1, sizeof output);
    UNLAWFUL(MAX, sizeof output);
}

/* As many ranges as may be, of one address each, two apart. */
static void many_ranges(void) {
    size_t i;
    for (i = 0; i < YZ_LIMIT; i++) {
        begins.at[i] = 2 * i;
        ends.at[i] = 2 * i + 1;
    }
}

/* A count above the limit, though what stands behind the arrays would make another range. */
static void refuses_one_more(writer *write) {
    static struct { yz_bounds bounds; uint64_t behind; } more_begins, more_ends;
    many_ranges();
    more_begins.bounds = begins;
    more_ends.bounds = ends;
    more_begins.behind = 6000;
    more_ends.behind = 6001;
    REFUSES_OUTPUT(write(3001, &more_begins.bounds, &more_ends.bounds, output, sizeof output), REFUSED(YZ_BAD_SHEET, 0));
    REFUSES_OUTPUT(write(3001, &more_begins.bounds, &more_ends.bounds, NO_BYTES), REFUSED(YZ_BAD_SHEET, 0));
}

static void test_sheet(void) {
    writer *write = yz_sheet;
    const size_t counts[] = {1024, 1025, 3000};
    size_t i;
    two_ranges(0x10, 0x30, 0x40, 0x50);
    WRITES(WRITE(1, 20), TOUCHING_SHEET, 20);
    WRITES(WRITE(1, 64), TOUCHING_SHEET, 20);
    WRITES(WRITE(0, 4), "\0\0\x08", 4);
    REFUSES_OUTPUT(WRITE(1, 19), NO_ROOM);
    REFUSES_OUTPUT(write(0, &begins, &ends, NO_BYTES), NO_ROOM);
    refuses_unlawful(write);
    for (i = 0; i < sizeof counts / sizeof *counts; i++) {
        const size_t len = make_big_sheet(counts[i]);
        many_ranges();
        WRITES(WRITE(counts[i], len), big_sheet, len);
        REFUSES_OUTPUT(WRITE(counts[i], len - 1), NO_ROOM);
        /* What was read from a sheet makes the same sheet. */
        IS(count, FROM_SHEET(big_sheet, len), DONE, counts[i]);
        WRITES(WRITE(counts[i], YZ_SHEET_MAX), big_sheet, len);
    }
    refuses_one_more(write);
}

static void test_canonical(void) {
    writer *write = yz_canonical;
    two_ranges(0x10, 0x30, 0x40, 0x50);
    WRITES(WRITE(1, 11), TOUCHING_CANONICAL, 11);
    WRITES(WRITE(1, 64), TOUCHING_CANONICAL, 11);
    WRITES(WRITE(0, 1), "", 1);
    REFUSES_OUTPUT(WRITE(1, 10), NO_ROOM);
    REFUSES_OUTPUT(write(0, &begins, &ends, NO_BYTES), NO_ROOM);
    two_ranges(0, 0x7f, 0x80, 0x100);
    WRITES(WRITE(2, 22), "\x07\0\0\0\0\0\0\0\0\x7f\x07\x80\0\0\0\0\0\0\0\x80\x01", 22);
    two_ranges(0, MAX, 0, 0);
    WRITES(WRITE(1, 20), "\x07\0\0\0\0\0\0\0\0\xff\xff\xff\xff\xff\xff\xff\xff\xff\x01", 20);
    refuses_unlawful(write);
    many_ranges();
    make_listed(3000, 0);
    WRITES(WRITE(3000, 30001), listed, 30001);
    WRITES(WRITE(3000, YZ_CANONICAL_MAX), listed, 30001);
    REFUSES_OUTPUT(WRITE(3000, 30000), NO_ROOM);
    refuses_one_more(write);
}

#define CANONICAL(list, encoding, offset, len) by->canonical(list, TABLE, 8, encoding, offset, 0, output, len)

static void test_range_canonical(void) {
    WRITES(CANONICAL(TOUCHING, little(5, 4), 0, 11), TOUCHING_CANONICAL, 11);
    WRITES(CANONICAL(TOUCHING, little(5, 4), 0, 64), TOUCHING_CANONICAL, 11);
    WRITES(CANONICAL(S("\x03\0\x20\0"), little(5, 4), 0, 64), TOUCHING_CANONICAL, 11);
    WRITES(CANONICAL(NO_BYTES, little(5, 4), 0, 1), "", 1);
    WRITES(by->canonical(S("\x09\x01\x21\0\0"), NO_BYTES, 0, big(4, 1), 1, 0x0f, output, 64), TOUCHING_CANONICAL, 11);
    WRITES(CANONICAL(S("\x07\x20\0\0\x10\x07\x10\0\0\x10\0"), little(5, 3), 0, 11), TOUCHING_CANONICAL, 11);
    WRITES(by->canonical(S("\x03\0\x20\0"), TABLE_3, 8, little(5, 3), 0, 0, output, 64), TOUCHING_CANONICAL, 11);
    /* The same addresses, whatever the size, the order and the version. */
    WRITES(CANONICAL(S("\x06\x01\x02\x03\x04\x05\x06\0"), little(5, 3), 0, 13), THREE_CANONICAL, 13);
    WRITES(CANONICAL(S("\x06\x03\x02\x01\x06\x05\x04\0"), big(5, 3), 0, 13), THREE_CANONICAL, 13);
    WRITES(CANONICAL(S("\x01\x02\x03\x04\x05\x06"), little(4, 3), 0, 13), THREE_CANONICAL, 13);
    WRITES(CANONICAL(S("\x06\x01\x02\x03\0\x04\x05\x06\0\0"), little(5, 4), 0, 13), THREE_CANONICAL, 13);
    WRITES(CANONICAL(S("\x06\x01\x02\x03\0\0\0\0\0\x04\x05\x06\0\0\0\0\0\0"), little(5, 8), 0, 13), THREE_CANONICAL, 13);
    REFUSES_OUTPUT(CANONICAL(S("\x06\x01\x02\x03\x04\x05\x06\0"), little(5, 3), 0, 12), NO_ROOM);
    REFUSES_OUTPUT(CANONICAL(S("\x06\x10\0"), little(5, 3), 0, 64), CUT_SHORT);
    REFUSES_OUTPUT(CANONICAL(NO_BYTES, little(5, 3), 1, 64), CUT_SHORT);
    REFUSES_OUTPUT(CANONICAL(TOUCHING, little(5, 4), 0, 10), NO_ROOM);
    REFUSES_OUTPUT(by->canonical(TOUCHING, NO_BYTES, 0, little(5, 4), 0, 0, NO_BYTES), NO_ROOM);
    REFUSES_OUTPUT(CANONICAL(S("\0"), little(5, 4), 0, 0), NO_ROOM);
    REFUSES_OUTPUT(CANONICAL(S("\x08"), little(5, 4), 0, 0), REFUSED(YZ_UNKNOWN_RANGE_LISTS_ENTRY, 8));
    REFUSES_OUTPUT(CANONICAL(S("\x07\x20\0\0\0\x10\x02\0\x02\0"), little(5, 4), 0, 64), CUT_SHORT);
    REFUSES_OUTPUT(CANONICAL(TOUCHING, little(5, 4), MAX, 64), CUT_SHORT);
    REFUSES_OUTPUT(CANONICAL(TOUCHING, little(5, 7), MAX, 64), BAD_SIZE(7));
    REFUSES_OUTPUT(CANONICAL(APART(3001), little(5, 4), 0, 64), TOO_MANY);
    REFUSES_OUTPUT(CANONICAL(SAME(3001, 0), little(5, 4), 0, 0), TOO_MANY);
    REFUSES_OUTPUT(CANONICAL(SAME(3000, 8), little(5, 4), 0, 0), REFUSED(YZ_UNKNOWN_RANGE_LISTS_ENTRY, 8));
    REFUSES_OUTPUT(CANONICAL(SAME(3001, 8), little(5, 4), 0, 0), TOO_MANY);
    WRITES(CANONICAL(SAME(3000, 0), little(5, 4), 0, 11), "\x07\x10\0\0\0\0\0\0\0\x01", 11);
    make_listed(3000, 0);
    WRITES(CANONICAL(APART(3000), little(5, 4), 0, 30001), listed, 30001);
    REFUSES_OUTPUT(CANONICAL(APART(3000), little(5, 4), 0, 30000), NO_ROOM);
}

#define LCANONICAL(list, encoding, file_type, offset, len)                                                           \
    yz_location_canonical(list, TABLE, 8, encoding, file_type, offset, 0, output, len)

static void test_location_canonical(void) {
#define LIST S("\x03\0\x20\0\0\0\x01\0\x50\0")
    WRITES(LCANONICAL(LIST, little(4, 4), DWO, 0, 64), TOUCHING_CANONICAL, 11);
    WRITES(LCANONICAL(S("\x04\x10\x30\0\0"), little(5, 4), MAIN, 0, 11), TOUCHING_CANONICAL, 11);
    WRITES(LCANONICAL(NO_BYTES, little(5, 4), MAIN, 0, 1), "", 1);
    WRITES(yz_location_canonical(S("\x09\x04\0\x20\0\0"), NO_BYTES, 0, little(5, 4), MAIN, 1, 0x10, output, 11),
           TOUCHING_CANONICAL, 11);
    WRITES(yz_location_canonical(LIST, TABLE_3, 8, little(4, 3), DWO, 0, 0, output, 64), TOUCHING_CANONICAL, 11);
    WRITES(LCANONICAL(S("\x07\x01\x02\x03\x04\x05\x06\x01\x50\0"), little(5, 3), MAIN, 0, 13), THREE_CANONICAL, 13);
    WRITES(LCANONICAL(S("\x03\x02\x01\x06\x05\x04\0\0"), big(4, 3), MAIN, 0, 13), THREE_CANONICAL, 13);
    WRITES(LCANONICAL(S("\x07\x01\x02\x03\0\x04\x05\x06\0\0\0"), little(5, 4), MAIN, 0, 13), THREE_CANONICAL, 13);
    REFUSES_OUTPUT(LCANONICAL(S("\x07\x10\0"), little(5, 3), MAIN, 0, 64), CUT_SHORT);
    REFUSES_OUTPUT(LCANONICAL(S("\x04\x10\x30\0\0"), little(5, 4), MAIN, 0, 10), NO_ROOM);
    REFUSES_OUTPUT(LCANONICAL(LIST, little(4, 4), MAIN, 0, 64), CUT_SHORT);
    REFUSES_OUTPUT(LCANONICAL(S("\x09"), little(5, 4), MAIN, 0, 0), REFUSED(YZ_UNKNOWN_LOC_LISTS_ENTRY, 9));
    REFUSES_OUTPUT(LCANONICAL(S("\x04\x10\x30\0\0"), little(5, 4), MAIN, MAX, 64), CUT_SHORT);
    REFUSES_OUTPUT(LCANONICAL(LIST, little(4, 7), DWO, MAX, 64), BAD_SIZE(7));
#undef LIST
    WRITES(LCANONICAL(DEFAULTS(3000, 0), little(5, 4), MAIN, 0, 20),
           "\x07\0\0\0\0\0\0\0\0\xff\xff\xff\xff\xff\xff\xff\xff\xff\x01", 20);
    REFUSES_OUTPUT(LCANONICAL(DEFAULTS(3001, 0), little(5, 4), MAIN, 0, 0), TOO_MANY);
    REFUSES_OUTPUT(LCANONICAL(DEFAULTS(3000, 9), little(5, 4), MAIN, 0, 0), REFUSED(YZ_UNKNOWN_LOC_LISTS_ENTRY, 9));
}

static void test_is_canonical(void) {
    CHECK(yz_is_canonical(S(TOUCHING_CANONICAL)));
    CHECK(yz_is_canonical(S("\0")));
    CHECK(yz_is_canonical(S("\x07\0\0\0\0\0\0\0\0\x7f\x07\x80\0\0\0\0\0\0\0\x80\x01\0")));
    CHECK(yz_is_canonical(S("\x07\0\0\0\0\0\0\0\0\xff\xff\xff\xff\xff\xff\xff\xff\xff\x01\0")));
    CHECK(yz_is_canonical(LISTED(3000, 0)));
    CHECK(!yz_is_canonical(LISTED(3001, 0)));
    CHECK(!yz_is_canonical(NO_BYTES));
    CHECK(!yz_is_canonical(S("\x07\x10\0\0\0\0\0\0\0\x20")));
    CHECK(!yz_is_canonical(S(TOUCHING_CANONICAL "\0")));
    CHECK(!yz_is_canonical(S("\x07\x10\0\0\0\0\0\0\0\xa0\0\0")));
    CHECK(!yz_is_canonical(S("\x07\x10\0\0\0\0\0\0\0\0\0")));
    CHECK(!yz_is_canonical(S("\x07\x01\0\0\0\0\0\0\0\xff\xff\xff\xff\xff\xff\xff\xff\xff\x01\0")));
    CHECK(!yz_is_canonical(S("\x07\x10\0\0\0\0\0\0\0\x10\x07\x20\0\0\0\0\0\0\0\x10\0")));
    CHECK(!yz_is_canonical(S("\x07\xfe\xff\xff\xff\xff\xff\xff\xff\x01\0")));
    CHECK(!yz_is_canonical(S("\x04\x10\x30\0")));
    CHECK(!yz_is_canonical(S("\x08")));
}

/* ---- Kind numbers. The supplier's table of the scope's examples has the codes 10 to 17 but 12 and 13. ---- */

/* A table that is put together, and bytes past it. */
static uint8_t kinds[2 * YZ_KIND_CODES];
#define KINDS kinds, YZ_KIND_CODES
#define ONE_BYTE_MORE kinds, YZ_KIND_CODES + 1
#define ALL_KINDS kinds, sizeof kinds

static void no_kinds(void) { memset(kinds, YZ_NO_KIND, sizeof kinds); }

static void kinds_are(const uint8_t *table) {
    no_kinds();
    memcpy(kinds, table, YZ_KIND_CODES);
}

static void kinds_from_10(void) {
    no_kinds();
    kinds[0x10] = 0;
    kinds[0x11] = 1;
    kinds[0x14] = 4;
    kinds[0x15] = 5;
    kinds[0x16] = 6;
    kinds[0x17] = 7;
}

#define LOADS(...) IS(done, yz_kinds_load(__VA_ARGS__), DONE)
#define NO_TABLE(...) IS(done, yz_kinds_load(__VA_ARGS__), REFUSED(YZ_BAD_KIND_TABLE, 0))

/* Whether a table may be loaded, as the scope says it. */
static bool is_table(void) {
    unsigned codes_of[8] = {0, 0, 0, 0, 0, 0, 0, 0};
    size_t i;
    for (i = 0; i < YZ_KIND_CODES; i++) {
        if (kinds[i] == YZ_NO_KIND) continue;
        if (kinds[i] > 7 || ++codes_of[kinds[i]] > 1) return false;
    }
    return codes_of[0] == 1;
}

static void test_kinds_load(void) {
    unsigned code, number, other;
    bool all = true;
    CHECK(YZ_KIND_CODES == 256 && YZ_NO_KIND == 255);
    kinds_are(dwarf_kinds);
    LOADS(KINDS);
    LOADS(supplier_kinds, sizeof supplier_kinds);
    kinds_from_10();
    LOADS(KINDS);
    /* Another length, whatever the bytes. */
    NO_TABLE(NO_BYTES);
    NO_TABLE(S(""));
    kinds_are(dwarf_kinds);
    for (code = 0; code <= sizeof kinds; code++)
        if (code != YZ_KIND_CODES) NO_TABLE(kinds, code);
    /* Kind 0 has none, one, two codes, or all of them. */
    no_kinds();
    NO_TABLE(KINDS);
    for (code = 0; code < YZ_KIND_CODES; code++) {
        no_kinds();
        kinds[code] = 0;
        LOADS(KINDS);
    }
    kinds[0] = 0;
    NO_TABLE(KINDS);
    memset(kinds, 0, sizeof kinds);
    NO_TABLE(KINDS);
    kinds_are(dwarf_kinds);
    kinds[0] = YZ_NO_KIND;
    NO_TABLE(KINDS);
    /* A kind has two codes, or none. */
    for (number = 0; number < 8; number++) {
        kinds_are(dwarf_kinds);
        kinds[8] = (uint8_t)number;
        NO_TABLE(KINDS);
        kinds[8] = YZ_NO_KIND;
        kinds[255] = (uint8_t)number;
        NO_TABLE(KINDS);
        kinds[number] = YZ_NO_KIND;
        LOADS(KINDS);
        kinds[255] = YZ_NO_KIND;
        if (number > 0) LOADS(KINDS);
    }
    /* A byte is neither, in the first place and in the last. */
    for (number = 8; number < YZ_NO_KIND; number++) {
        kinds_are(dwarf_kinds);
        kinds[255] = (uint8_t)number;
        NO_TABLE(KINDS);
        no_kinds();
        kinds[255] = 0;
        LOADS(KINDS);
        kinds[0] = (uint8_t)number;
        NO_TABLE(KINDS);
    }
    /* Each byte changed to each; and each two swapped. */
    for (code = 0; code < YZ_KIND_CODES; code++)
        for (number = 0; number < 256; number++) {
            kinds_are(dwarf_kinds);
            kinds[code] = (uint8_t)number;
            if ((yz_kinds_load(KINDS).result == YZ_DONE) != is_table()) all = false;
        }
    CHECK(all);
    for (code = 0; code < YZ_KIND_CODES; code++)
        for (other = 0; other < 8; other++) {
            kinds_are(dwarf_kinds);
            kinds[other] = kinds[code];
            kinds[code] = (uint8_t)other;
            if (yz_kinds_load(KINDS).result != YZ_DONE) all = false;
        }
    CHECK(all);
}

/* The calls that read an entry, by a table. */
#define NEXT_BY(list, encoding, table, at, base_address, entries, ...)                                               \
    STEP(range, yz_range_next_by(list, TABLE, 8, encoding, table, &walk), at, base_address, entries, __VA_ARGS__)
#define IN_PROFILE_BY(list, encoding, table, at, base_address, entries, ...)                                         \
    STEP(range, yz_range_next_in_profile_by(list, TABLE, 8, encoding, table, &walk), at, base_address, entries, __VA_ARGS__)
#define RAW_BY(list, encoding, table, at, base_address, entries, ...)                                                \
    STEP(raw_range, yz_range_next_raw_by(list, encoding, table, &walk), at, base_address, entries, __VA_ARGS__)
/* Each of them on a list's begin, where it hands out no entry. */
#define NONE_BY(list, encoding, table, at, entries, ...)                                                             \
    do {                                                                                                             \
        ranges_from(0, 7);                                                                                           \
        STEP(range, yz_range_next_by(list, TABLE, 8, encoding, table, &walk), at, 7, entries, __VA_ARGS__);          \
        ranges_from(0, 7);                                                                                           \
        STEP(range, yz_range_next_in_profile_by(list, TABLE, 8, encoding, table, &walk), at, 7, entries, __VA_ARGS__); \
        ranges_from(0, 7);                                                                                           \
        STEP(raw_range, yz_range_next_raw_by(list, encoding, table, &walk), at, 7, entries, __VA_ARGS__);            \
    } while (0)

/* What a call answers to the one code of a list by a table of that many bytes 00: the end, or past the table a refusal. */
static bool ends_before(size_t table_len) {
    unsigned code;
    memset(kinds, 0, sizeof kinds);
    for (code = 0; code < 256; code++) {
        const uint8_t list[] = {(uint8_t)code, 0};
        const bool there = code < table_len;
        yz_range range, in_profile;
        yz_raw_range raw;
        walk_from(0, 0, 0);
        range = yz_range_next_by(list, 2, NO_BYTES, 0, little(5, 4), kinds, table_len, &walk);
        if (!walk_is(2, 0, there, 0)) return false;
        walk_from(0, 0, 0);
        in_profile = yz_range_next_in_profile_by(list, 2, NO_BYTES, 0, little(5, 4), kinds, table_len, &walk);
        if (!walk_is(2, 0, there, 0) || memcmp(&in_profile, &range, sizeof range) != 0) return false;
        walk_from(0, 0, 0);
        raw = yz_range_next_raw_by(list, 2, little(5, 4), kinds, table_len, &walk);
        if (!walk_is(2, 0, there, 0)) return false;
        if (range.result != (there ? YZ_END : YZ_REFUSED) || raw.result != range.result) return false;
        if (there) continue;
        if (range.refusal != YZ_UNKNOWN_RANGE_LISTS_ENTRY || range.refusal_value != code) return false;
        if (raw.refusal != YZ_UNKNOWN_RANGE_LISTS_ENTRY || raw.refusal_value != code) return false;
    }
    return true;
}

/* Tables that were not loaded. */
static void unloaded_tables(void) {
    unsigned number;
    size_t len;
    NONE_BY(S("\0"), little(5, 4), NO_BYTES, 1, 0, NO_CODE(0));
    NONE_BY(S("\0"), little(5, 4), S(""), 1, 0, NO_CODE(0));
    NONE_BY(S("\x01\0\0"), little(5, 4), S("\0"), 3, 0, NO_CODE(1));
    NONE_BY(S("\x01\0"), little(5, 4), S("\0\x08"), 2, 0, NO_CODE(1));
    NONE_BY(S("\x01\x05"), little(5, 4), S("\0\0"), 2, 1, END);
#define FIVE S("\0\x01\x02\x03\x04")
    ranges_from(0, 0);
    NEXT_BY(S("\x04\x01\x05\0"), little(5, 4), FIVE, 3, 0, 1, DONE, 1, 5);
    NEXT_BY(S("\x04\x01\x05\0"), little(5, 4), FIVE, 4, 0, 2, END);
    NONE_BY(S("\x07\x10\0\0\0\x08\0"), little(5, 4), FIVE, 7, 0, NO_CODE(7));
#undef FIVE
    for (len = 0; len <= YZ_KIND_CODES; len++)
        CHECK(ends_before(len));
    CHECK(ends_before(sizeof kinds));
    /* 8 to 254 is no kind, and by no number cut to fewer bits; 255 is none. */
    for (number = 8; number < 256; number++) {
        kinds_are(dwarf_kinds);
        kinds[4] = (uint8_t)number;
        NONE_BY(S("\x04\x01\x05\0"), little(5, 4), KINDS, 4, 0, NO_CODE(4));
        kinds[0xfe] = 0;
        NONE_BY(S("\xfe\x04"), little(5, 4), KINDS, 2, 1, END);
    }
    /* Two codes for a kind, and none for the end: the section's end is one. */
    no_kinds();
    kinds[4] = 4;
    kinds[0xff] = 4;
    ranges_from(0, 0);
    NEXT_BY(S("\x04\x01\x05\xff\x06\x07"), little(5, 4), KINDS, 3, 0, 1, DONE, 1, 5);
    NEXT_BY(S("\x04\x01\x05\xff\x06\x07"), little(5, 4), KINDS, 6, 0, 2, DONE, 6, 7);
    NEXT_BY(S("\x04\x01\x05\xff\x06\x07"), little(5, 4), KINDS, 6, 0, 2, END);
    NONE_BY(S("\0"), little(5, 4), KINDS, 1, 0, NO_CODE(0));
    /* Bytes past the first 256 are no codes'. */
    no_kinds();
    kinds[YZ_KIND_CODES] = 0;
    kinds[YZ_KIND_CODES + 4] = 4;
    NONE_BY(S("\0"), little(5, 4), ALL_KINDS, 1, 0, NO_CODE(0));
    NONE_BY(S("\x04\x01\x05\0"), little(5, 4), ALL_KINDS, 4, 0, NO_CODE(4));
    kinds_are(dwarf_kinds);
    ranges_from(0, 0);
    NEXT_BY(S("\x04\x01\x05\0"), little(5, 4), ONE_BYTE_MORE, 3, 0, 1, DONE, 1, 5);
    /* The list's own bytes as its table: 0 is no kind there, 1 the end, and 4 has 1. */
    NONE_BY(S("\x01\0\x09\x09\x01"), little(5, 4), S("\x09\0\x09\x09\x01"), 5, 1, END);
}

#define ANY_TABLE table, table_len

/* Bare pairs by tables that would refuse every code, end the list or make something else of it. */
static void bare_pairs(void (*walks)(const uint8_t *, size_t)) {
    unsigned number;
    walks(NO_BYTES);
    walks(S("\0"));
    walks(S("\x01\0\x02\0\0\0\0\0"));
    walks(ALL_KINDS);
    for (number = 0; number < 256; number++) {
        memset(kinds, (int)number, sizeof kinds);
        walks(KINDS);
    }
}

#define BARE S("\x01\0\x02\0\xff\xff\0\x20\x04\0\x07\0\0\0\0\0\x01")

static void bare_next(const uint8_t *table, size_t table_len) {
    ranges_from(0, 0);
    NEXT_BY(S("\x01\0\x02\0\0\0\0\0"), little(4, 2), ANY_TABLE, 4, 0, 1, DONE, 1, 2);
    NEXT_BY(S("\x01\0\x02\0\0\0\0\0"), little(4, 2), ANY_TABLE, 8, 0, 2, END);
    ranges_from(0, 0);
    NEXT_BY(BARE, little(2, 2), ANY_TABLE, 4, 0, 1, DONE, 1, 2);
    NEXT_BY(BARE, little(2, 2), ANY_TABLE, 12, 0x2000, 3, DONE, 0x2004, 0x2007);
    NEXT_BY(BARE, little(2, 2), ANY_TABLE, 17, 0x2000, 4, END);
}

static void test_range_next_by(void) {
    const yz_range_entry base = range_entry(YZ_RLE_BASE_ADDRESS, 0x200, 0);
    by_tables(test_range_next);
    by_tables(marks_of_ranges);
    by_tables(ranges_again);
    kinds_from_10();
    ranges_from(0, 0x1000);
    NEXT_BY(S("\x14\x01\x05\x10"), little(5, 4), KINDS, 3, 0x1000, 1, DONE, 0x1001, 0x1005);
    NEXT_BY(S("\x14\x01\x05\x10"), little(5, 4), KINDS, 4, 0x1000, 2, END);
    ranges_from(0, 0);
    NEXT_BY(S("\x17\x10\0\0\0\x08\x10"), little(5, 4), KINDS, 6, 0, 1, DONE, 0x10, 0x18);
    NEXT_BY(S("\x17\x10\0\0\0\x08\x10"), little(5, 4), KINDS, 7, 0, 2, END);
    /* Operands are no codes. */
    ranges_from(0, 0x1000);
    NEXT_BY(S("\x14\x04\x05\x10"), little(5, 4), KINDS, 3, 0x1000, 1, DONE, 0x1004, 0x1005);
    ranges_from(0, 0x1000);
    NEXT_BY(S("\x14\x14\x17\x10"), little(6, 4), KINDS, 3, 0x1000, 1, DONE, 0x1014, 0x1017);
    ranges_from(0, 0);
    NEXT_BY(S("\x11\x01\x14\x10\x11\x10"), little(5, 4), KINDS, 5, 0x20, 2, DONE, 0x30, 0x31);
    /* What follows the end isn't read. */
    NONE_BY(S("\x10\x14"), little(5, 4), KINDS, 2, 1, END);
    NONE_BY(S("\0"), little(5, 4), KINDS, 1, 0, NO_CODE(0));
    NONE_BY(S("\x04\x01\x05\0"), little(5, 4), KINDS, 4, 0, NO_CODE(4));
    NONE_BY(S("\xff\x01\x05\x10"), little(5, 4), KINDS, 4, 0, NO_CODE(0xff));
    NONE_BY(S("\x13\x01\x05\x10"), little(5, 4), KINDS, 4, 0, NO_CODE(0x13));
    /* The code that is refused, an emptied walk, and a mark before. */
#define LIST S("\x14\x01\x05\x99\x14\x06\x07\x10")
    no_marks();
    OPENS(yz_range_open(LIST, little(5, 4), 0, 0, &walk), 0, 0, 0);
    NEXT_BY(LIST, little(5, 4), KINDS, 3, 0, 1, DONE, 1, 5);
    SETS(3);
    NEXT_BY(LIST, little(5, 4), KINDS, 8, 0, 1, NO_CODE(0x99));
    NEXT_BY(LIST, little(5, 4), KINDS, 8, 0, 1, END);
    RAW_BY(LIST, little(5, 4), KINDS, 8, 0, 1, END);
    RETURNS(3, 3, 0, 1, 0);
    NEXT_BY(LIST, little(5, 4), KINDS, 8, 0, 1, NO_CODE(0x99));
    /* By another table it goes on, and so it does by none. */
    RETURNS(3, 3, 0, 1, 0);
    kinds[0x99] = 0;
    NEXT_BY(LIST, little(5, 4), KINDS, 8, 0, 2, END);
    RETURNS(3, 3, 0, 1, 0);
    NEXT(LIST, TABLE, little(5, 4), 8, 0, 1, NO_CODE(0x99));
#undef LIST
#define LIST S("\x14\x01\x05\x04\x06\x07\x10\0")
    kinds_from_10();
    OPENS(yz_range_open(LIST, little(5, 4), 0, 0x100, &walk), 0, 0x100, 0);
    NEXT_BY(LIST, little(5, 4), KINDS, 3, 0x100, 1, DONE, 0x101, 0x105);
    STEP(range, yz_range_convert_raw(TABLE, 8, little(5, 4), base, &walk), 3, 0x200, 1, COMES_TO_NOTHING);
    NEXT(LIST, TABLE, little(5, 4), 6, 0x200, 2, DONE, 0x206, 0x207);
    NEXT_BY(LIST, little(5, 4), KINDS, 8, 0x200, 3, END);
#undef LIST
    /* The address table's refusals, and what is refused of an entry. */
#define LIST S("\x11\x02\x11\x01\x14\x01\x02\x14\x01")
    ranges_from(0, 7);
    NEXT_BY(LIST, little(5, 4), KINDS, 2, 7, 1, CUT_SHORT);
    NEXT_BY(LIST, little(5, 4), KINDS, 7, 0x20, 3, DONE, 0x21, 0x22);
    NEXT_BY(LIST, little(5, 4), KINDS, 9, 0x20, 3, CUT_SHORT);
    NEXT_BY(LIST, little(5, 4), KINDS, 9, 0x20, 3, END);
#undef LIST
    NONE_BY(S("\x14" NINE "\x02\x01"), little(5, 4), KINDS, 12, 0, REFUSED(YZ_BAD_UNSIGNED_LEB128, 0));
    ranges_from(0, 7);
    NEXT_BY(S("\x11" INDEX_2_61 "\x10"), little(5, 8), KINDS, 10, 7, 1, TOO_FAR);
    /* Walks made by hand. */
    ranges_from(MAX, 7);
    walk.entries = MAX;
    NEXT_BY(S("\x14\x01\x05\x10"), little(5, 4), KINDS, MAX, 7, MAX, END);
    NEXT_BY(NO_BYTES, little(5, 4), NO_BYTES, MAX, 7, MAX, END);
    ranges_from(1, MAX);
    walk.entries = MAX - 1;
    NEXT_BY(S("\x99\x14\x01\x05\x10"), little(5, 8), KINDS, 5, MAX, MAX, END);
    ranges_from(3, 7);
    walk.entries = MAX;
    NEXT_BY(S("\x14\x01\x05\x10"), little(5, 4), KINDS, 4, 7, MAX, END);
    /* 6 before all else. */
    NONE_BY(S("\x14\x01\x05\x10"), little(5, 5), KINDS, 4, 0, BAD_SIZE(5));
    NONE_BY(S("\x99"), little(5, 0), NO_BYTES, 1, 0, BAD_SIZE(0));
    NONE_BY(NO_BYTES, little(4, 255), NO_BYTES, 0, 0, BAD_SIZE(255));
    ranges_from(MAX, 7);
    NEXT_BY(S("\x99"), little(5, 9), NO_BYTES, 1, 7, 0, BAD_SIZE(9));
    NEXT_BY(S("\x99"), little(5, 9), NO_BYTES, 1, 7, 0, BAD_SIZE(9));
    unloaded_tables();
    bare_pairs(bare_next);
}

static void bare_in_profile(const uint8_t *table, size_t table_len) {
    ranges_from(0, 0);
    IN_PROFILE_BY(BARE, little(2, 2), ANY_TABLE, 4, 0, 1, DONE, 1, 2);
    IN_PROFILE_BY(BARE, little(2, 2), ANY_TABLE, 12, 0x2000, 3, DONE, 0x2004, 0x2007);
    IN_PROFILE_BY(BARE, little(2, 2), ANY_TABLE, 17, 0x2000, 4, END);
    ranges_from(0, 0);
    IN_PROFILE_BY(S("\x03\0\x01\0\0\0\0\0"), little(4, 2), ANY_TABLE, 8, 0, 1, BACKWARD);
    IN_PROFILE_BY(S("\x03\0\x01\0\0\0\0\0"), little(4, 2), ANY_TABLE, 8, 0, 1, END);
    ranges_from(0, 0xfffe);
    IN_PROFILE_BY(S("\x01\0\x03\0\0\0\0\0"), little(4, 2), ANY_TABLE, 8, 0xfffe, 1, TOMBSTONE);
}

static void test_range_next_in_profile_by(void) {
    by_tables(test_range_next_in_profile);
    kinds_from_10();
    /* Codes of a table, and one without a kind in front of a padded number and behind one. */
    ranges_from(0, 0x1000);
    IN_PROFILE_BY(S("\x14\x01\x82\0\x10"), little(5, 4), KINDS, 5, 0x1000, 1, PADDED_NUMBER);
    IN_PROFILE_BY(S("\x14\x01\x82\0\x10"), little(5, 4), KINDS, 5, 0x1000, 1, END);
    NONE_BY(S("\x04\x01\x82\0\x10"), little(5, 4), KINDS, 5, 0, NO_CODE(4));
    ranges_from(0, 0);
    IN_PROFILE_BY(S("\x15\xfe\x14\x04\x05\x10"), little(5, 1), KINDS, 6, 0xfe, 2, TOMBSTONE);
    ranges_from(0, 0);
    IN_PROFILE_BY(S("\x16\x20\x10\x10"), little(5, 1), KINDS, 4, 0, 1, BACKWARD);
    ranges_from(0, 0);
    IN_PROFILE_BY(S("\x16\x10\x10\x17\x10\x01\x99\x14"), little(5, 1), KINDS, 6, 0, 2, DONE, 0x10, 0x11);
    IN_PROFILE_BY(S("\x16\x10\x10\x17\x10\x01\x99\x14"), little(5, 1), KINDS, 8, 0, 2, NO_CODE(0x99));
    IN_PROFILE_BY(S("\x16\x10\x10\x17\x10\x01\x99\x14"), little(5, 1), KINDS, 8, 0, 2, END);
    /* Mixed with the other calls, by another table and by none; marks before what is refused. */
#define LIST S("\x14\x01\x02\x14\x81\0\x02\x04\x02\x01\x10\0")
    no_marks();
    OPENS(yz_range_open(LIST, little(5, 1), 0, 0x10, &walk), 0, 0x10, 0);
    IN_PROFILE_BY(LIST, little(5, 1), KINDS, 3, 0x10, 1, DONE, 0x11, 0x12);
    SETS(0);
    IN_PROFILE_BY(LIST, little(5, 1), KINDS, 12, 0x10, 2, PADDED_NUMBER);
    RETURNS(0, 3, 0x10, 1, 0);
    IN_PROFILE_BY(LIST, little(5, 1), KINDS, 12, 0x10, 2, PADDED_NUMBER);
    RETURNS(0, 3, 0x10, 1, 0);
    NEXT_BY(LIST, little(5, 1), KINDS, 7, 0x10, 2, DONE, 0x11, 0x12);
    SETS(1);
    IN_PROFILE_BY(LIST, little(5, 1), KINDS, 12, 0x10, 2, NO_CODE(4));
    RETURNS(1, 7, 0x10, 2, 0);
    PNEXT(LIST, TABLE, little(5, 1), 12, 0x10, 3, BACKWARD);
    RETURNS(1, 7, 0x10, 2, 0);
    RAW_BY(LIST, little(5, 1), NO_BYTES, 12, 0x10, 2, NO_CODE(4));
#undef LIST
    /* Tables that are not 256 long. */
#define FIVE S("\0\x01\x02\x03\x04")
    ranges_from(0, 0);
    IN_PROFILE_BY(S("\x04\x05\x01\0"), little(5, 4), FIVE, 4, 0, 1, BACKWARD);
    ranges_from(0, 0);
    IN_PROFILE_BY(S("\x04\x01\x05\x07\0"), little(5, 4), FIVE, 3, 0, 1, DONE, 1, 5);
    IN_PROFILE_BY(S("\x04\x01\x05\x07\0"), little(5, 4), FIVE, 5, 0, 1, NO_CODE(7));
#undef FIVE
    kinds_are(dwarf_kinds);
    kinds[YZ_KIND_CODES + 4] = 4;
    ranges_from(0, 0);
    IN_PROFILE_BY(S("\x04\x85\0\x01\0"), little(5, 4), ONE_BYTE_MORE, 5, 0, 1, PADDED_NUMBER);
    ranges_from(0, 0);
    IN_PROFILE_BY(S("\x04\x05\x05\x04\x05\x01\0"), little(5, 4), ALL_KINDS, 7, 0, 2, BACKWARD);
    /* Two codes for a kind, none for the end. */
    no_kinds();
    kinds[4] = 4;
    kinds[0xff] = 4;
    ranges_from(0, 0);
    IN_PROFILE_BY(S("\x04\x01\x05\xff\x06\x05"), little(5, 4), KINDS, 3, 0, 1, DONE, 1, 5);
    IN_PROFILE_BY(S("\x04\x01\x05\xff\x06\x05"), little(5, 4), KINDS, 6, 0, 2, BACKWARD);
    /* Walks made by hand, and 6 before all else. */
    ranges_from(MAX, 7);
    walk.entries = MAX;
    IN_PROFILE_BY(S("\x04\x05\x01"), little(5, 4), KINDS, MAX, 7, MAX, END);
    IN_PROFILE_BY(NO_BYTES, little(5, 4), NO_BYTES, MAX, 7, MAX, END);
    IN_PROFILE_BY(NO_BYTES, little(5, 255), NO_BYTES, 0, 7, MAX, BAD_SIZE(255));
    ranges_from(0, 7);
    walk.entries = MAX - 1;
    IN_PROFILE_BY(S("\x04\x05\x01"), little(5, 4), KINDS, 3, 7, MAX, BACKWARD);
    bare_pairs(bare_in_profile);
}

static void bare_next_raw(const uint8_t *table, size_t table_len) {
    ranges_from(0, 7);
    RAW_BY(BARE, little(4, 2), ANY_TABLE, 4, 7, 1, DONE, YZ_RLE_ADDRESS_OR_OFFSET_PAIR, 1, 2, 0);
    RAW_BY(BARE, little(4, 2), ANY_TABLE, 8, 7, 2, DONE, YZ_RLE_BASE_ADDRESS, 0x2000, 0, 0);
    RAW_BY(BARE, little(4, 2), ANY_TABLE, 12, 7, 3, DONE, YZ_RLE_ADDRESS_OR_OFFSET_PAIR, 4, 7, 0);
    RAW_BY(BARE, little(4, 2), ANY_TABLE, 17, 7, 4, END);
}

static void test_range_next_raw_by(void) {
    by_tables(test_range_next_raw);
    by_tables(ranges_converted);
    /* One entry of each kind that has a code, by its number; some have padded numbers. */
    kinds_from_10();
#define LIST S("\x11\x89\0\x14\x04\x05\x14\x84\0\x05\x15\x33\x16\x02\x03\x17\x01\x82\0\x10\x14")
    ranges_from(0, 7);
    RAW_BY(LIST, little(5, 1), KINDS, 3, 7, 1, DONE, YZ_RLE_BASE_ADDRESSX, 9, 0, 1);
    RAW_BY(LIST, little(5, 1), KINDS, 6, 7, 2, DONE, YZ_RLE_OFFSET_PAIR, 4, 5, 0);
    RAW_BY(LIST, little(5, 1), KINDS, 10, 7, 3, DONE, YZ_RLE_OFFSET_PAIR, 4, 5, 1);
    RAW_BY(LIST, little(5, 1), KINDS, 12, 7, 4, DONE, YZ_RLE_BASE_ADDRESS, 0x33, 0, 0);
    RAW_BY(LIST, little(5, 1), KINDS, 15, 7, 5, DONE, YZ_RLE_START_END, 2, 3, 0);
    RAW_BY(LIST, little(5, 1), KINDS, 19, 7, 6, DONE, YZ_RLE_START_LENGTH, 1, 2, 1);
    RAW_BY(LIST, little(5, 1), KINDS, 21, 7, 7, END);
#undef LIST
    /* A code that has a kind as DWARF's number, and a kind that is no code of its own. */
    no_kinds();
    kinds[7] = 1;
    kinds[1] = 7;
    kinds[4] = 0;
    ranges_from(0, 7);
    RAW_BY(S("\x07\x01\x01\x05\x06\x04"), little(5, 1), KINDS, 2, 7, 1, DONE, YZ_RLE_BASE_ADDRESSX, 1, 0, 0);
    RAW_BY(S("\x07\x01\x01\x05\x06\x04"), little(5, 1), KINDS, 5, 7, 2, DONE, YZ_RLE_START_LENGTH, 5, 6, 0);
    RAW_BY(S("\x07\x01\x01\x05\x06\x04"), little(5, 1), KINDS, 6, 7, 3, END);
    NONE_BY(S("\0"), little(5, 1), KINDS, 1, 0, NO_CODE(0));
    bare_pairs(bare_next_raw);
}

#define LOOKUP_BY(list, encoding, offset, table, address, ...)                                                       \
    IS(range, yz_range_lookup_by(list, TABLE, 8, encoding, offset, 0x40, table, address), __VA_ARGS__)

static void bare_lookup(const uint8_t *table, size_t table_len) {
    LOOKUP_BY(BARE, little(4, 2), 0, ANY_TABLE, 0x41, DONE, 0x41, 0x42);
    LOOKUP_BY(BARE, little(3, 2), 4, ANY_TABLE, 0x2006, DONE, 0x2004, 0x2007);
    LOOKUP_BY(BARE, little(4, 2), 0, ANY_TABLE, 0x42, NOT_THERE);
}

static void test_range_lookup_by(void) {
    by_tables(test_range_lookup);
    kinds_from_10();
#define LIST S("\x17\x10\0\0\0\x08\x14\x01\x05\x99\x10")
    LOOKUP_BY(LIST, little(5, 4), 0, KINDS, 0x12, DONE, 0x10, 0x18);
    LOOKUP_BY(LIST, little(5, 4), 0, KINDS, 0x44, DONE, 0x41, 0x45);
    LOOKUP_BY(LIST, little(5, 4), 6, KINDS, 0x12, NO_CODE(0x99));
    LOOKUP_BY(LIST, little(5, 4), 10, KINDS, 0x12, NOT_THERE);
    LOOKUP_BY(LIST, little(5, 4), 11, KINDS, 0x12, NOT_THERE);
    LOOKUP_BY(LIST, little(5, 4), 12, KINDS, 0x12, CUT_SHORT);
    LOOKUP_BY(LIST, little(5, 4), 0, S("\0\x01\x02\x03\x04\x05\x06\x07"), 0x12, NO_CODE(0x17));
    LOOKUP_BY(LIST, little(5, 4), 0, NO_BYTES, 0x12, NO_CODE(0x17));
    LOOKUP_BY(LIST, little(5, 4), MAX, NO_BYTES, 0x12, CUT_SHORT);
    LOOKUP_BY(LIST, little(5, 7), MAX, NO_BYTES, 0x12, BAD_SIZE(7));
#undef LIST
    LOOKUP_BY(S("\x07\x10\0\0\0\x08\0"), little(5, 4), 0, KINDS, 0x12, NO_CODE(7));
    bare_pairs(bare_lookup);
}

#define LOOKUPS_BY(list, encoding, offset, table)                                                                    \
    yz_range_lookups_by(list, TABLE, 8, encoding, offset, 0x40, table, ASKED)

static void bare_lookups(const uint8_t *table, size_t table_len) {
    GIVES(LOOKUPS_BY(BARE, little(4, 2), 0, ANY_TABLE), 3, {0x41, DONE, 0x41, 0x42}, {0x2006, DONE, 0x2004, 0x2007});
    GIVES(LOOKUPS_BY(BARE, little(3, 2), 0, ANY_TABLE), 4, {0x41, DONE, 0x41, 0x42}, {0x42, NOT_THERE});
}

static void test_range_lookups_by(void) {
    by_tables(test_range_lookups);
    kinds_from_10();
#define LIST S("\x17\x10\0\0\0\x08\x14\x01\x05\x99\x10")
#define FIRST DONE, 0x10, 0x18
#define SECOND DONE, 0x41, 0x45
    GIVES(LOOKUPS_BY(LIST, little(5, 4), 0, KINDS), 2, {0x12, FIRST}, {0x18, NO_CODE(0x99)}, {0x44, SECOND});
    GIVES(LOOKUPS_BY(LIST, little(5, 4), 0, KINDS), 2, {0x12, FIRST}, {0x12, FIRST}, {0x44, SECOND}, {0x44, SECOND});
    GIVES(LOOKUPS_BY(LIST, little(5, 4), 0, KINDS), 1, {0x12, FIRST});
    GIVES(LOOKUPS_BY(LIST, little(5, 4), 10, KINDS), 1, {0x12, NOT_THERE}, {0x44, NOT_THERE});
    GIVES(LOOKUPS_BY(LIST, little(5, 4), 11, KINDS), 0, {0x12, NOT_THERE}, {0x44, NOT_THERE});
    GIVES(LOOKUPS_BY(LIST, little(5, 4), 12, KINDS), 0, {0x12, CUT_SHORT}, {0x44, CUT_SHORT});
    GIVES(LOOKUPS_BY(LIST, little(5, 7), 12, KINDS), 0, {0x12, BAD_SIZE(7)}, {0x44, BAD_SIZE(7)});
    GIVES(LOOKUPS_BY(LIST, little(5, 4), 0, NO_BYTES), 0, {0x12, NO_CODE(0x17)}, {0x44, NO_CODE(0x17)});
    GIVES(LOOKUPS_BY(LIST, little(5, 4), 0, S("\0\x01\x02\x03\x04\x05\x06\x07")), 0, {0x12, NO_CODE(0x17)});
    /* A code for the end in place of the second entry's. */
    kinds[0x14] = 0;
    GIVES(LOOKUPS_BY(LIST, little(5, 4), 0, KINDS), 2, {0x12, FIRST}, {0x44, NOT_THERE});
    kinds_from_10();
    ask_none();
    LEAVES(LOOKUPS_BY(LIST, little(5, 7), MAX, NO_BYTES), DONE, 0);
    LEAVES(yz_range_lookups_by(NO_BYTES, NO_BYTES, 0, little(5, 4), 1, 0, NO_BYTES, NO_ADDRESSES), DONE, 0);
    ask(2, 0x44, MAX);
    LEAVES(LOOKUPS_BY(LIST, little(5, 4), 0, KINDS), DESCENDING);
    LEAVES(LOOKUPS_BY(LIST, little(5, 7), MAX, NO_BYTES), DESCENDING);
    ask(65, 0x44, MAX);
    LEAVES(LOOKUPS_BY(LIST, little(5, 7), MAX, NO_BYTES), TOO_MANY_ADDRESSES);
    ask(64, 0x10, 0);
    GIVES_EACH(LOOKUPS_BY(LIST, little(5, 4), 0, KINDS), 1, FIRST);
#undef FIRST
#undef SECOND
#undef LIST
    GIVES(LOOKUPS_BY(S("\x07\x10\0\0\0\x08\0"), little(5, 4), 0, KINDS), 0, {0x12, NO_CODE(7)});
    bare_pairs(bare_lookups);
}

/* The ranges that touch, and a list with code 99, both by the codes from 10 on. */
#define TOUCHING_FROM_10 S("\x17\x20\0\0\0\x10\x17\x10\0\0\0\x10\x10")
#define ENDS_IN_99 S("\x17\x20\0\0\0\x10\x99\x10")

#define COVER_BY(list, encoding, offset, table)                                                                      \
    yz_range_coverage_by(list, TABLE, 8, encoding, offset, 0, table, &begins, &ends)

static void bare_coverage(const uint8_t *table, size_t table_len) {
    COVERS(COVER_BY(BARE, little(4, 2), 0, ANY_TABLE), 2);
    CHECK(range_is(0, 1, 2) && range_is(1, 0x2004, 0x2007));
}

static void test_range_coverage_by(void) {
    by_tables(test_range_coverage);
    kinds_from_10();
    COVERS(COVER_BY(TOUCHING_FROM_10, little(5, 4), 0, KINDS), 1);
    CHECK(range_is(0, 0x10, 0x30));
    COVERS(COVER_BY(TOUCHING_FROM_10, little(5, 4), 12, KINDS), 0);
    COVERS(COVER_BY(NO_BYTES, little(5, 4), 0, NO_BYTES), 0);
    REFUSES_COVERAGE(COVER_BY(ENDS_IN_99, little(5, 4), 0, KINDS), NO_CODE(0x99));
    REFUSES_COVERAGE(COVER_BY(TOUCHING_FROM_10, little(5, 4), 0, NO_BYTES), NO_CODE(0x17));
    REFUSES_COVERAGE(COVER_BY(TOUCHING, little(5, 4), 0, KINDS), NO_CODE(7));
    REFUSES_COVERAGE(COVER_BY(TOUCHING_FROM_10, little(5, 4), MAX, NO_BYTES), CUT_SHORT);
    REFUSES_COVERAGE(COVER_BY(TOUCHING_FROM_10, little(5, 5), MAX, NO_BYTES), BAD_SIZE(5));
    /* A code for the end in place of one for the kind. */
    memset(kinds, 0, sizeof kinds);
    COVERS(COVER_BY(APART(YZ_LIMIT + 1), little(5, 4), 0, KINDS), 0);
    bare_pairs(bare_coverage);
}

#define RUNS_BY(list, encoding, offset, table, b, e)                                                                 \
    yz_range_runs_by(list, TABLE, 8, encoding, offset, 0, table, INTO(b, e))

static void bare_runs(const uint8_t *table, size_t table_len) {
    PUTS(RUNS_BY(BARE, little(4, 2), 0, ANY_TABLE, 2, 2), 2);
    CHECK(run_is(0, 1, 2) && run_is(1, 0x2004, 0x2007));
    REFUSES_RUNS(RUNS_BY(BARE, little(4, 2), 0, ANY_TABLE, 1, 2), NO_ROOM);
}

static void test_range_runs_by(void) {
    by_tables(test_range_runs);
    kinds_from_10();
    PUTS(RUNS_BY(TOUCHING_FROM_10, little(5, 4), 0, KINDS, 1, 3), 1);
    CHECK(run_is(0, 0x10, 0x30));
    PUTS(RUNS_BY(S("\x10"), little(5, 4), 0, KINDS, 0, 0), 0);
    REFUSES_RUNS(RUNS_BY(TOUCHING_FROM_10, little(5, 4), 0, KINDS, 0, 1), NO_ROOM);
    REFUSES_RUNS(RUNS_BY(TOUCHING_FROM_10, little(5, 4), 0, KINDS, 1, 0), NO_ROOM);
    /* 11 comes last. */
    REFUSES_RUNS(RUNS_BY(ENDS_IN_99, little(5, 4), 0, KINDS, 0, 0), NO_CODE(0x99));
    REFUSES_RUNS(RUNS_BY(TOUCHING_FROM_10, little(5, 4), 0, NO_BYTES, 0, 0), NO_CODE(0x17));
    REFUSES_RUNS(RUNS_BY(TOUCHING, little(5, 4), 0, KINDS, 2, 2), NO_CODE(7));
    REFUSES_RUNS(RUNS_BY(TOUCHING_FROM_10, little(5, 4), MAX, NO_BYTES, 0, 0), CUT_SHORT);
    REFUSES_RUNS(RUNS_BY(TOUCHING_FROM_10, little(5, 6), MAX, NO_BYTES, 0, 0), BAD_SIZE(6));
    bare_pairs(bare_runs);
}

#define CANONICAL_BY(list, encoding, offset, table, len)                                                             \
    yz_range_canonical_by(list, TABLE, 8, encoding, offset, 0, table, output, len)

static void bare_canonical(const uint8_t *table, size_t table_len) {
    WRITES(CANONICAL_BY(S("\x10\0\x30\0\0\0\0\0"), little(4, 2), 0, ANY_TABLE, 11), TOUCHING_CANONICAL, 11);
}

static void test_range_canonical_by(void) {
    by_tables(test_range_canonical);
    kinds_from_10();
    REFUSES_OUTPUT(CANONICAL_BY(ENDS_IN_99, little(5, 4), 0, KINDS, 64), NO_CODE(0x99));
    REFUSES_OUTPUT(CANONICAL_BY(TOUCHING_FROM_10, little(5, 4), 0, NO_BYTES, 0), NO_CODE(0x17));
    REFUSES_OUTPUT(CANONICAL_BY(TOUCHING, little(5, 4), 0, KINDS, 64), NO_CODE(7));
    REFUSES_OUTPUT(CANONICAL_BY(TOUCHING_FROM_10, little(5, 4), 0, KINDS, 10), NO_ROOM);
    REFUSES_OUTPUT(CANONICAL_BY(TOUCHING_FROM_10, little(5, 4), MAX, NO_BYTES, 0), CUT_SHORT);
    REFUSES_OUTPUT(CANONICAL_BY(TOUCHING_FROM_10, little(5, 7), MAX, NO_BYTES, 0), BAD_SIZE(7));
    WRITES(CANONICAL_BY(S("\x10"), little(5, 4), 0, KINDS, 1), "", 1);
#define WRITTEN_OUT output, 11
    /* It has DWARF's own numbers: the calls without a table read it, and by the list's table it is none. */
    WRITES(CANONICAL_BY(TOUCHING_FROM_10, little(5, 4), 0, KINDS, 64), TOUCHING_CANONICAL, 11);
    CHECK(yz_is_canonical(WRITTEN_OUT));
    COVERS(yz_coverage_from_canonical(WRITTEN_OUT, &begins, &ends), 1);
    CHECK(range_is(0, 0x10, 0x30));
    ranges_from(0, 0);
    NEXT(WRITTEN_OUT, TABLE, little(5, 8), 10, 0, 1, DONE, 0x10, 0x30);
    NEXT(WRITTEN_OUT, TABLE, little(5, 8), 11, 0, 2, END);
    REFUSES_COVERAGE(COVER_BY(WRITTEN_OUT, little(5, 8), 0, KINDS), NO_CODE(7));
#undef WRITTEN_OUT
    bare_pairs(bare_canonical);
}

static const struct { const char *name; void (*run)(void); } tests[] = {
    {"yz_version", test_version},
    {"yz_uleb128", test_uleb128},
    {"yz_read_u8", test_read_u8},
    {"yz_read_u16", test_read_u16},
    {"yz_read_u32", test_read_u32},
    {"yz_read_u64", test_read_u64},
    {"yz_read_address", test_read_address},
    {"yz_read_address_size", test_read_address_size},
    {"yz_read_offset", test_read_offset},
    {"yz_initial_length", test_initial_length},
    {"yz_skip", test_skip},
    {"yz_split", test_split},
    {"yz_truncate", test_truncate},
    {"yz_wrapping_add_sized", test_wrapping_add_sized},
    {"yz_min_tombstone", test_min_tombstone},
    {"yz_ones_sized", test_ones_sized},
    {"yz_get_address", test_get_address},
    {"yz_table_next", test_table_next},
    {"yz_table_entry_next", test_table_entry_next},
    {"yz_lists_header", test_lists_header},
    {"yz_range_get_offset", test_range_get_offset},
    {"yz_range_default_base", test_range_default_base},
    {"yz_location_get_offset", test_location_get_offset},
    {"yz_location_default_base", test_location_default_base},
    {"yz_section_of", test_section_of},
    {"yz_range_open", test_range_open},
    {"yz_range_next", test_range_next},
    {"yz_range_next_in_profile", test_range_next_in_profile},
    {"yz_range_next_raw", test_range_next_raw},
    {"yz_range_convert_raw", test_range_convert_raw},
    {"yz_range_lookup", test_range_lookup},
    {"yz_range_lookups", test_range_lookups},
    {"yz_location_open", test_location_open},
    {"yz_location_next", test_location_next},
    {"yz_location_next_in_profile", test_location_next_in_profile},
    {"yz_location_next_raw", test_location_next_raw},
    {"yz_location_convert_raw", test_location_convert_raw},
    {"yz_expression", test_expression},
    {"yz_location_lookup", test_location_lookup},
    {"yz_location_lookups", test_location_lookups},
    {"yz_mark_set", test_mark_set},
    {"yz_mark_return", test_mark_return},
    {"yz_range_coverage", test_range_coverage},
    {"yz_range_runs", test_range_runs},
    {"yz_location_coverage", test_location_coverage},
    {"yz_location_runs", test_location_runs},
    {"yz_coverage_from_canonical", test_coverage_from_canonical},
    {"yz_coverage_from_sheet", test_coverage_from_sheet},
    {"yz_sheet", test_sheet},
    {"yz_canonical", test_canonical},
    {"yz_range_canonical", test_range_canonical},
    {"yz_location_canonical", test_location_canonical},
    {"yz_is_canonical", test_is_canonical},
    {"yz_kinds_load", test_kinds_load},
    {"yz_range_next_by", test_range_next_by},
    {"yz_range_next_in_profile_by", test_range_next_in_profile_by},
    {"yz_range_next_raw_by", test_range_next_raw_by},
    {"yz_range_lookup_by", test_range_lookup_by},
    {"yz_range_lookups_by", test_range_lookups_by},
    {"yz_range_coverage_by", test_range_coverage_by},
    {"yz_range_runs_by", test_range_runs_by},
    {"yz_range_canonical_by", test_range_canonical_by},
};

int main(int argc, char **argv) {
    const size_t count = sizeof tests / sizeof *tests;
    size_t i;
    if (argc > 1 && strcmp(argv[1], "--list") == 0) {
        for (i = 0; i < count; i++)
            puts(tests[i].name);
        return 0;
    }
    if (argc > 1 && strcmp(argv[1], "--refusals") == 0) {
        for (i = YZ_UNEXPECTED_EOF; i <= YZ_DESCENDING_ADDRESSES; i++)
            printf("%u %s\n", (unsigned)i, yz_refusal_name((yz_refusal)i));
        return 0;
    }
    make_tables();
    for (i = 0; i < count; i++) {
        test = tests[i].name;
        tests[i].run();
    }
    printf("test.c: %u exports, %u passed, %u failed\n", (unsigned)count, passed, failed);
    return failed == 0 ? 0 : 1;
}
