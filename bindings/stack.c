/* How much stack the calls over coverages and raw entries, those that look up several addresses, those in the profile and those by
 * tables of kind numbers take: each is made on a stack of its own that was filled with one byte, and what was written there is
 * held to what the header says. With -v every figure is printed. */
#define _XOPEN_SOURCE 700
#include "yeltzarun.h"
#include <stdio.h>
#include <stdlib.h>
#include <string.h>
#include <ucontext.h>

#define SIZE (1 << 20)
#define FILLED 0xa5

static uint8_t stack[SIZE];
static ucontext_t here, there;
/* Where the stack stands when a call is made. */
static uint8_t *top;
#define MAKE(answer) do { __asm__ volatile("mov %%rsp, %0" : "=r"(top)); answer; } while (0)

static uint8_t ranges[10 * (YZ_LIMIT + 1) + 1], locations[11 * (YZ_LIMIT + 1) + 1], output[YZ_CANONICAL_MAX], sheet[YZ_SHEET_MAX];
static size_t ranges_len, locations_len, sheet_len, output_len;
static yz_bounds begins, ends;
static const yz_encoding unit = {5, 8, false, 0};
static yz_count got;
static bool canonical;
static uint8_t entry[32];
static yz_encoding written = {5, 8, false, 0};
static yz_walk walk;
static yz_raw_range raw_range;
static yz_raw_location raw_location;
static yz_range range;
static yz_location location;
static yz_done done;
/* DWARF's own numbers. */
static uint8_t kinds[YZ_KIND_CODES];
static uint64_t addresses[YZ_MOST_ADDRESSES + 1];
static size_t addresses_len;
static yz_found found;

#define RANGES ranges, ranges_len, NULL, 0, 0, unit
#define LOCATIONS locations, locations_len, NULL, 0, 0, unit, YZ_FILE_MAIN
static void range_coverage(void) { MAKE(got = yz_range_coverage(RANGES, 0, 0, &begins, &ends)); }
static void range_runs(void) { MAKE(got = yz_range_runs(RANGES, 0, 0, begins.at, YZ_LIMIT, ends.at, YZ_LIMIT)); }
static void range_canonical(void) { MAKE(got = yz_range_canonical(RANGES, 0, 0, output, sizeof output)); }
static void location_coverage(void) { MAKE(got = yz_location_coverage(LOCATIONS, 0, 0, &begins, &ends)); }
static void location_runs(void) { MAKE(got = yz_location_runs(LOCATIONS, 0, 0, begins.at, YZ_LIMIT, ends.at, YZ_LIMIT)); }
static void location_canonical(void) { MAKE(got = yz_location_canonical(LOCATIONS, 0, 0, output, sizeof output)); }
static void from_canonical(void) { MAKE(got = yz_coverage_from_canonical(ranges, ranges_len, &begins, &ends)); }
static void to_sheet(void) { MAKE(got = yz_sheet(YZ_LIMIT, &begins, &ends, sheet, sizeof sheet)); }
static void from_sheet(void) { MAKE(got = yz_coverage_from_sheet(sheet, sheet_len, &begins, &ends)); }
static void to_canonical(void) { MAKE(got = yz_canonical(YZ_LIMIT, &begins, &ends, output, sizeof output)); }
static void is_canonical(void) { MAKE(canonical = yz_is_canonical(output, output_len)); }
static void range_next_raw(void) { MAKE(raw_range = yz_range_next_raw(entry, sizeof entry, written, &walk)); }
#define KINDS kinds, sizeof kinds
static void range_coverage_by(void) { MAKE(got = yz_range_coverage_by(RANGES, 0, 0, KINDS, &begins, &ends)); }
static void range_runs_by(void) { MAKE(got = yz_range_runs_by(RANGES, 0, 0, KINDS, begins.at, YZ_LIMIT, ends.at, YZ_LIMIT)); }
static void range_canonical_by(void) { MAKE(got = yz_range_canonical_by(RANGES, 0, 0, KINDS, output, sizeof output)); }
static void range_next_by(void) { MAKE(range = yz_range_next_by(entry, sizeof entry, NULL, 0, 0, written, KINDS, &walk)); }
static void range_next_raw_by(void) { MAKE(raw_range = yz_range_next_raw_by(entry, sizeof entry, written, KINDS, &walk)); }
#define ENTRY entry, sizeof entry, entry, sizeof entry, 0, written
static void range_in_profile(void) { MAKE(range = yz_range_next_in_profile(ENTRY, &walk)); }
static void range_in_profile_by(void) { MAKE(range = yz_range_next_in_profile_by(ENTRY, KINDS, &walk)); }
static void location_in_profile(void) { MAKE(location = yz_location_next_in_profile(ENTRY, &walk)); }
static void range_lookup_by(void) { MAKE(range = yz_range_lookup_by(RANGES, 0, 0, KINDS, UINT64_MAX)); }
#define ADDRESSES addresses, addresses_len, &found
static void range_lookups(void) { MAKE(got = yz_range_lookups(RANGES, 0, 0, ADDRESSES)); }
static void location_lookups(void) { MAKE(got = yz_location_lookups(LOCATIONS, 0, 0, ADDRESSES)); }
static void range_lookups_by(void) { MAKE(got = yz_range_lookups_by(RANGES, 0, 0, KINDS, ADDRESSES)); }
static void entry_lookups(void) { MAKE(got = yz_range_lookups(entry, sizeof entry, NULL, 0, 0, written, 0, 0, ADDRESSES)); }
static void entry_lookups_by(void) {
    MAKE(got = yz_range_lookups_by(entry, sizeof entry, NULL, 0, 0, written, 0, 0, KINDS, ADDRESSES));
}
static void split_lookups(void) {
    MAKE(got = yz_location_lookups(entry, sizeof entry, NULL, 0, 0, written, YZ_FILE_DWO, 0, 0, ADDRESSES));
}
static void kinds_load(void) { MAKE(done = yz_kinds_load(KINDS)); }
static void location_next_raw(void) { MAKE(raw_location = yz_location_next_raw(entry, sizeof entry, written, &walk)); }

static long used(void (*call)(void)) {
    size_t i = 0;
    memset(stack, FILLED, SIZE);
    getcontext(&there);
    there.uc_stack.ss_sp = stack;
    there.uc_stack.ss_size = SIZE;
    there.uc_link = &here;
    makecontext(&there, call, 0);
    swapcontext(&here, &there);
    while (i < SIZE && stack[i] == FILLED)
        i++;
    return (long)(top - (stack + i));
}

static int passed, failed, told;

static void below(const char *name, size_t count, void (*call)(void), long bound) {
    long bytes = used(call);
    if (told)
        printf("%s, %zu ranges: %ld\n", name, count, bytes);
    if (0 < bytes && bytes < bound) {
        passed++;
        return;
    }
    failed++;
    printf("%s, %zu ranges: %ld bytes of stack, not below %ld\n", name, count, bytes, bound);
}

static uint8_t *put(uint8_t *at, uint8_t kind, uint64_t begin) {
    int i;
    *at++ = kind;
    for (i = 0; i < 8; i++)
        *at++ = (uint8_t)(begin >> 8 * i);
    *at++ = 2;
    return at;
}

/* So many ranges: ascending; mixed; mixed, with one far from the others, so that they are merged and not put into parts. */
static void make_lists(size_t count, int order) {
    uint8_t *r = ranges, *l = locations;
    size_t i, step = order == 0 ? 1 : 1009;
    for (i = 0; i < count; i++) {
        uint64_t begin = 0x1000 + 4 * (i * step % count);
        if (order == 2 && i == count / 2)
            begin = UINT64_C(1) << 60;
        r = put(r, 7, begin);
        l = put(l, 8, begin);
        *l++ = 0;
    }
    *r++ = 0;
    *l++ = 0;
    ranges_len = (size_t)(r - ranges);
    locations_len = (size_t)(l - locations);
}

/* So many addresses: in as many ranges of a list, in none, or in the first. */
static void make_addresses(size_t count, int where) {
    size_t i;
    addresses_len = count;
    for (i = 0; i < count; i++)
        addresses[i] = where == 0 ? 0x1000 + 4 * i : where == 1 ? UINT64_MAX : 0x1001;
}

/* Several addresses in a list of so many ranges. */
static void lookups(size_t n) {
    static const size_t counts[] = {0, 1, 2, 32, YZ_MOST_ADDRESSES, YZ_MOST_ADDRESSES + 1};
    size_t c;
    int where;
    for (c = 0; c < sizeof counts / sizeof *counts; c++)
        for (where = 0; where < 3; where++) {
            make_addresses(counts[c], where);
            below("yz_range_lookups", n, range_lookups, YZ_STACK_LOOKUPS);
            below("yz_range_lookups_by", n, range_lookups_by, YZ_STACK_LOOKUPS);
            below("yz_location_lookups", n, location_lookups, YZ_STACK_LOOKUPS);
        }
}

/* A call on an entry of each kind, split and of both layouts, and of one that is none; its numbers are padded, or none is. */
static void raw_entries(const char *name, void (*call)(void), long bound) {
    static const uint8_t firsts[] = {0x81, 1};
    uint8_t kind;
    size_t i, f;
    for (kind = 0; kind < 10; kind++)
        for (written.version = 4; written.version < 6; written.version++)
            for (f = 0; f < sizeof firsts; f++) {
                entry[0] = kind;
                for (i = 1; i < sizeof entry; i++)
                    entry[i] = i % 2 == 1 ? firsts[f] : 0;
                memset(&walk, 0, sizeof walk);
                walk.split = 1;
                below(name, 1, call, bound);
            }
}

int main(int argc, char **argv) {
    static const size_t counts[] = {1, 32, 33, 128, 129, YZ_LIMIT, YZ_LIMIT + 1};
    size_t c;
    int order;
    told = argc == 2 && strcmp(argv[1], "-v") == 0;
    for (c = 0; c < sizeof kinds; c++)
        kinds[c] = c < 8 ? (uint8_t)c : YZ_NO_KIND;
    for (c = 0; c < sizeof counts / sizeof *counts; c++)
        for (order = 0; order < 3; order++) {
            size_t n = counts[c];
            long bound = n <= 32 ? YZ_STACK_SHORT : YZ_STACK;
            make_lists(n, order);
            below("yz_range_coverage", n, range_coverage, bound);
            below("yz_range_runs", n, range_runs, bound);
            below("yz_range_canonical", n, range_canonical, bound);
            below("yz_range_coverage_by", n, range_coverage_by, bound);
            below("yz_range_runs_by", n, range_runs_by, bound);
            below("yz_range_canonical_by", n, range_canonical_by, bound);
            below("yz_range_lookup_by", n, range_lookup_by, YZ_STACK_OTHERS);
            below("yz_location_coverage", n, location_coverage, bound);
            below("yz_location_runs", n, location_runs, bound);
            below("yz_location_canonical", n, location_canonical, bound);
            below("yz_coverage_from_canonical", n, from_canonical, bound);
            lookups(n);
        }
    make_lists(YZ_LIMIT, 0);
    range_coverage();
    below("yz_sheet", YZ_LIMIT, to_sheet, YZ_STACK_OTHERS);
    sheet_len = got.count;
    below("yz_coverage_from_sheet", YZ_LIMIT, from_sheet, YZ_STACK_OTHERS);
    below("yz_canonical", YZ_LIMIT, to_canonical, YZ_STACK_OTHERS);
    output_len = got.count;
    below("yz_is_canonical", YZ_LIMIT, is_canonical, YZ_STACK_OTHERS);
    below("yz_kinds_load", 0, kinds_load, YZ_STACK_OTHERS);
    raw_entries("yz_range_next_raw", range_next_raw, YZ_STACK_OTHERS);
    raw_entries("yz_range_next_raw_by", range_next_raw_by, YZ_STACK_OTHERS);
    raw_entries("yz_range_next_by", range_next_by, YZ_STACK_OTHERS);
    raw_entries("yz_location_next_raw", location_next_raw, YZ_STACK_OTHERS);
    raw_entries("yz_range_next_in_profile", range_in_profile, YZ_STACK_OTHERS);
    raw_entries("yz_range_next_in_profile_by", range_in_profile_by, YZ_STACK_OTHERS);
    raw_entries("yz_location_next_in_profile", location_in_profile, YZ_STACK_OTHERS);
    make_addresses(YZ_MOST_ADDRESSES, 0);
    raw_entries("yz_range_lookups", entry_lookups, YZ_STACK_LOOKUPS);
    raw_entries("yz_range_lookups_by", entry_lookups_by, YZ_STACK_LOOKUPS);
    raw_entries("yz_location_lookups", split_lookups, YZ_STACK_LOOKUPS);
    printf("stack: %d passed, %d failed\n", passed, failed);
    return failed != 0;
}
