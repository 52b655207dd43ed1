//! Each export through the wrapper, on good and on bad input. The expected values are DWARF's and
//! the scope's, worked out by hand. A test has its export's name; `--list` prints the names,
//! `--refusals` the refusals' numbers and names.

use std::fmt::Debug;
use std::process::ExitCode;
use yeltzarun::RunTimeEndian::{Big, Little};
use yeltzarun::*;

#[derive(Default)]
struct Checks {
    test: &'static str,
    passed: usize,
    failed: usize,
}

impl Checks {
    #[track_caller]
    fn same<T: PartialEq + Debug>(&mut self, got: T, expected: T) {
        if got == expected {
            self.passed += 1;
            return;
        }
        self.failed += 1;
        let line = std::panic::Location::caller().line();
        println!("test.rs:{line}: {}: got {got:x?}, expected {expected:x?}", self.test);
    }
}

/// A name, and what is run.
type Test = (&'static str, fn(&mut Checks));

const TESTS: &[Test] = &[
    ("yz_version", versions),
    ("yz_uleb128", uleb128),
    ("yz_read_u8", read_u8),
    ("yz_read_u16", read_u16),
    ("yz_read_u32", read_u32),
    ("yz_read_u64", read_u64),
    ("yz_read_address", read_address),
    ("yz_read_address_size", read_address_size),
    ("yz_read_offset", read_offset),
    ("yz_initial_length", initial_length),
    ("yz_skip", skip),
    ("yz_split", split),
    ("yz_truncate", truncate),
    ("yz_wrapping_add_sized", wrapping_add_sized),
    ("yz_min_tombstone", min_tombstone),
    ("yz_ones_sized", ones_sized),
    ("yz_get_address", get_address),
    ("yz_table_next", table_next),
    ("yz_table_entry_next", table_entry_next),
    ("yz_lists_header", lists_header),
    ("yz_range_get_offset", range_get_offset),
    ("yz_range_default_base", range_default_base),
    ("yz_location_get_offset", location_get_offset),
    ("yz_location_default_base", location_default_base),
    ("yz_section_of", section_of),
    ("yz_range_open", range_open),
    ("yz_range_next", range_next),
    ("yz_range_next_in_profile", range_next_in_profile),
    ("yz_range_next_raw", range_next_raw),
    ("yz_range_convert_raw", range_convert_raw),
    ("yz_range_lookup", range_lookup),
    ("yz_range_lookups", range_lookups),
    ("yz_location_open", location_open),
    ("yz_location_next", location_next),
    ("yz_location_next_in_profile", location_next_in_profile),
    ("yz_location_next_raw", location_next_raw),
    ("yz_location_convert_raw", location_convert_raw),
    ("yz_expression", expression),
    ("yz_location_lookup", location_lookup),
    ("yz_location_lookups", location_lookups),
    ("yz_mark_set", mark_set),
    ("yz_mark_return", mark_return),
    ("yz_range_coverage", range_coverage),
    ("yz_range_runs", range_runs),
    ("yz_location_coverage", location_coverage),
    ("yz_location_runs", location_runs),
    ("yz_coverage_from_canonical", coverage_from_canonical),
    ("yz_coverage_from_sheet", coverage_from_sheet),
    ("yz_sheet", sheet),
    ("yz_canonical", canonical),
    ("yz_range_canonical", range_canonical),
    ("yz_location_canonical", location_canonical),
    ("yz_is_canonical", is_canonical),
    ("yz_kinds_load", kinds_load),
    ("yz_range_next_by", range_next_by),
    ("yz_range_next_in_profile_by", range_next_in_profile_by),
    ("yz_range_next_raw_by", range_next_raw_by),
    ("yz_range_lookup_by", range_lookup_by),
    ("yz_range_lookups_by", range_lookups_by),
    ("yz_range_coverage_by", range_coverage_by),
    ("yz_range_runs_by", range_runs_by),
    ("yz_range_canonical_by", range_canonical_by),
];

/// What the wrapper has beside its calls.
const MORE_TESTS: &[Test] = &[
    ("Error", errors),
    ("Error::MixedByteOrders", byte_orders),
    ("Iterator", iterators),
    ("InProfile", in_profile),
    ("Marked", marked),
    ("KindTable", kind_tables),
    ("the end of every walk", ends),
];

fn main() -> ExitCode {
    if std::env::args().any(|word| word == "--list") {
        TESTS.iter().for_each(|(name, _)| println!("{name}"));
        return ExitCode::SUCCESS;
    }
    if std::env::args().any(|word| word == "--refusals") {
        (1..=21).for_each(|n| println!("{n} {}", Error::from_number(n, 0).name()));
        return ExitCode::SUCCESS;
    }
    let mut checks = Checks::default();
    for (name, test) in TESTS.iter().chain(MORE_TESTS) {
        checks.test = name;
        test(&mut checks);
    }
    println!(
        "test.rs: {} exports, {} passed, {} failed",
        TESTS.len(),
        checks.passed,
        checks.failed
    );
    if checks.failed == 0 { ExitCode::SUCCESS } else { ExitCode::FAILURE }
}

const EOF: Error = Error::UnexpectedEof;
const TWO_TO_61: u64 = 1 << 61;
/// Times 3 it is 2^64 - 1.
const THIRD: u64 = u64::MAX / 3;

/// The scope's address table: its addresses begin at 8.
const TABLE: &[u8] = &[0x0c, 0, 0, 0, 5, 0, 4, 0, 0x10, 0, 0, 0, 0x20, 0, 0, 0];
/// The same in the other order.
const BIG_TABLE: &[u8] = &[0, 0, 0, 0x0c, 0, 5, 4, 0, 0, 0, 0, 0x10, 0, 0, 0, 0x20];
/// Both with addresses of three bytes.
const TABLE_3: &[u8] = &[0x0a, 0, 0, 0, 5, 0, 3, 0, 0x10, 0, 0, 0x20, 0, 0];
const BIG_TABLE_3: &[u8] = &[0, 0, 0, 0x0a, 0, 5, 3, 0, 0, 0, 0x10, 0, 0, 0x20];
/// A header of lists with two offsets, 8 and 10, and two lists of one byte.
const LISTS: &[u8] = &[0x12, 0, 0, 0, 5, 0, 4, 0, 2, 0, 0, 0, 8, 0, 0, 0, 0x0a, 0, 0, 0, 0, 0];
/// Nine bytes of a LEB128 number; the tenth decides.
const NINE: [u8; 9] = [0x80; 9];

fn encoding(version: u16, address_size: u8) -> Encoding {
    Encoding { address_size, format: Format::Dwarf32, version }
}

fn dwarf64() -> Encoding {
    Encoding { address_size: 8, format: Format::Dwarf64, version: 5 }
}

/// The table for lists of an address size: the scope's, but for three bytes.
fn table_of(address_size: u8) -> DebugAddr<'static> {
    DebugAddr::new(if address_size == 3 { TABLE_3 } else { TABLE }, Little)
}

fn at(begin: u64, end: u64) -> Range {
    Range { begin, end }
}

fn join(parts: &[&[u8]]) -> Vec<u8> {
    parts.concat()
}

fn versions(c: &mut Checks) {
    c.same(version(), VERSION);
    c.same(VERSION, 10);
    c.same((LIMIT, SHEET_MAX, CANONICAL_MAX), (3000, 48_004, 57_001));
    c.same((MARKS, MOST_ADDRESSES), (8, 64));
}

fn errors(c: &mut Checks) {
    let e = Error::UnknownLocListsEntry(9);
    c.same((e.number(), e.value(), e.name()), (4, Some(9), "UnknownLocListsEntry"));
    c.same(e.to_string(), "4 UnknownLocListsEntry 0x9".to_string());
    c.same((EOF.number(), EOF.value(), EOF.to_string()), (1, None, "1 UnexpectedEof".to_string()));
    for number in 0..30 {
        let e = Error::from_number(number, 7);
        c.same((e.number(), e.value().unwrap_or(7)), (number, 7));
        c.same(e == Error::Unknown(number, 7), !(1..=21).contains(&number));
    }
    let unknown = Error::from_number(u64::MAX, u64::MAX);
    c.same(unknown, Error::Unknown(u64::MAX, u64::MAX));
    c.same(Error::from_number(22, 9).to_string(), "22 Unknown 0x9".to_string());
    c.same((NO_MARK.to_string(), NO_MARK.value()), ("13 NoSuchMark".to_string(), None));
    c.same((NO_TABLE.to_string(), NO_TABLE.value()), ("19 BadKindTable".to_string(), None));
    c.same(Error::TooManyAddresses.to_string(), "20 TooManyAddresses".to_string());
    c.same(Error::DescendingAddresses.to_string(), "21 DescendingAddresses".to_string());
    let mixed = Error::MixedByteOrders;
    c.same((mixed.number(), mixed.value(), mixed.name()), (0, None, "MixedByteOrders"));
}

// Reads

/// What a read gives, and how many bytes are left after it.
fn read<'a, T>(
    bytes: &'a [u8],
    endian: RunTimeEndian,
    call: impl FnOnce(&mut EndianSlice<'a>) -> Result<T>,
) -> (Result<T>, usize) {
    let mut slice = EndianSlice::new(bytes, endian);
    let got = call(&mut slice);
    (got, slice.len())
}

fn uleb128(c: &mut Checks) {
    let leb = |bytes: &[u8]| read(bytes, Little, |s| s.read_uleb128());
    c.same(leb(&[0xe5, 0x8e, 0x26, 0xff]), (Ok(624485), 1));
    c.same(leb(&[0x80, 0x00]), (Ok(0), 0));
    c.same(leb(&join(&[&NINE, &[1]])), (Ok(1 << 63), 0));
    c.same(leb(&join(&[&NINE, &[0]])), (Ok(0), 0));
    c.same(leb(&join(&[&NINE, &[2]])), (Err(Error::BadUnsignedLeb128), 10));
    c.same(leb(&NINE), (Err(EOF), 9));
    c.same(leb(&[]), (Err(EOF), 0));
    let leb = |bytes: &[u8]| read(bytes, Little, |s| s.read_uleb128_with_length());
    let is = |value, length, padded| Ok(Leb128 { value, length, padded });
    c.same(leb(&[0xe5, 0x8e, 0x26, 0xff]), (is(624485, 3, false), 1));
    c.same(leb(&[0x00]), (is(0, 1, false), 0));
    c.same(leb(&[0x7f]), (is(0x7f, 1, false), 0));
    c.same(leb(&[0x80, 0x01]), (is(0x80, 2, false), 0));
    c.same(leb(&[0x80, 0x00]), (is(0, 2, true), 0));
    c.same(leb(&[0x82, 0x00]), (is(2, 2, true), 0));
    c.same(leb(&[0xff, 0x7f]), (is(0x3fff, 2, false), 0));
    c.same(leb(&[0x81, 0x80, 0x00]), (is(1, 3, true), 0));
    c.same(leb(&[0x80, 0x81, 0x00]), (is(0x80, 3, true), 0));
    c.same(leb(&join(&[&NINE, &[1]])), (is(1 << 63, 10, false), 0));
    c.same(leb(&join(&[&NINE, &[0]])), (is(0, 10, true), 0));
    c.same(leb(&join(&[&[0xff; 9], &[1]])), (is(u64::MAX, 10, false), 0));
    c.same(leb(&join(&[&[0xff; 9], &[0]])), (is(u64::MAX >> 1, 10, true), 0));
    c.same(leb(&join(&[&[0xff; 8], &[0x7f]])), (is(u64::MAX >> 1, 9, false), 0));
    c.same(leb(&join(&[&NINE, &[2]])), (Err(Error::BadUnsignedLeb128), 10));
    c.same(leb(&NINE), (Err(EOF), 9));
    c.same(leb(&[0x80]), (Err(EOF), 1));
    c.same(leb(&[]), (Err(EOF), 0));
    // Of each length from 1 to 10 the smallest number and the largest, as they are and padded to
    // every length that is read, between bytes that are no part of them; then of eleven bytes.
    let behind_one =
        |bytes: &[u8]| read(bytes, Big, |s| s.skip(1).and_then(|_| s.read_uleb128_with_length()));
    for bytes in 1..=10 {
        let smallest = if bytes > 1 { 1 << (7 * (bytes - 1)) } else { 0 };
        let largest = if bytes < 10 { (1 << (7 * bytes)) - 1 } else { u64::MAX };
        for number in [smallest, largest] {
            for padding in 0..=10 - bytes {
                let length = bytes + padding;
                let written = join(&[&[0x80], &leb128(number, padding), &[0]]);
                let expected = is(number, length, padding > 0);
                c.same(behind_one(&written), (expected, 1));
                c.same(behind_one(&written[..1 + length]), (expected, 0));
                c.same(behind_one(&written[..length]), (Err(EOF), length - 1));
            }
            let eleven = leb128(number, 11 - bytes);
            c.same(leb(&eleven), (Err(Error::BadUnsignedLeb128), 11));
        }
    }
}

/// A LEB128 number: its shortest form, made longer by so many bytes.
fn leb128(mut number: u64, padding: usize) -> Vec<u8> {
    let mut bytes = Vec::new();
    while number > 0x7f {
        bytes.push(number as u8 | 0x80);
        number >>= 7;
    }
    bytes.push(number as u8);
    for _ in 0..padding {
        *bytes.last_mut().expect("a byte") |= 0x80;
        bytes.push(0);
    }
    bytes
}

fn read_u8(c: &mut Checks) {
    let mut slice = EndianSlice::new(&[0xab, 0xcd], Big);
    c.same(slice.read_u8(), Ok(0xab));
    c.same(slice.slice(), &[0xcd][..]);
    c.same(slice.read_u8(), Ok(0xcd));
    c.same(slice.read_u8(), Err(EOF));
    c.same((slice.is_empty(), slice.endian()), (true, Big));
}

fn read_u16(c: &mut Checks) {
    c.same(read(&[1, 2, 3], Little, |s| s.read_u16()), (Ok(0x0201), 1));
    c.same(read(&[1, 2, 3], Big, |s| s.read_u16()), (Ok(0x0102), 1));
    c.same(read(&[1], Little, |s| s.read_u16()), (Err(EOF), 1));
    c.same(read(&[], Big, |s| s.read_u16()), (Err(EOF), 0));
}

fn read_u32(c: &mut Checks) {
    c.same(read(&[1, 2, 3, 4], Little, |s| s.read_u32()), (Ok(0x0403_0201), 0));
    c.same(read(&[1, 2, 3, 4], Big, |s| s.read_u32()), (Ok(0x0102_0304), 0));
    c.same(read(&[1, 2, 3], Big, |s| s.read_u32()), (Err(EOF), 3));
    c.same(read(&[], Little, |s| s.read_u32()), (Err(EOF), 0));
}

const EIGHT: &[u8] = &[1, 2, 3, 4, 5, 6, 7, 8];

fn read_u64(c: &mut Checks) {
    c.same(read(EIGHT, Little, |s| s.read_u64()), (Ok(0x0807_0605_0403_0201), 0));
    c.same(read(EIGHT, Big, |s| s.read_u64()), (Ok(0x0102_0304_0506_0708), 0));
    c.same(read(&EIGHT[1..], Little, |s| s.read_u64()), (Err(EOF), 7));
    c.same(read(&[], Little, |s| s.read_u64()), (Err(EOF), 0));
}

fn read_address(c: &mut Checks) {
    c.same(read(EIGHT, Little, |s| s.read_address(1)), (Ok(1), 7));
    c.same(read(EIGHT, Little, |s| s.read_address(2)), (Ok(0x0201), 6));
    c.same(read(EIGHT, Little, |s| s.read_address(3)), (Ok(0x03_0201), 5));
    c.same(read(EIGHT, Big, |s| s.read_address(3)), (Ok(0x01_0203), 5));
    c.same(read(EIGHT, Big, |s| s.read_address(4)), (Ok(0x0102_0304), 4));
    c.same(read(EIGHT, Little, |s| s.read_address(8)), (Ok(0x0807_0605_0403_0201), 0));
    c.same(read(&EIGHT[1..], Little, |s| s.read_address(8)), (Err(EOF), 7));
    c.same(read(&EIGHT[6..], Little, |s| s.read_address(3)), (Err(EOF), 2));
    c.same(read(&[], Big, |s| s.read_address(3)), (Err(EOF), 0));
    for size in [0, 5, 6, 7, 9, 255] {
        let refused = Err(Error::UnsupportedAddressSize(size.into()));
        c.same(read(EIGHT, Little, |s| s.read_address(size)), (refused, 8));
        c.same(read(&[], Big, |s| s.read_address(size)), (refused, 0));
    }
}

fn read_address_size(c: &mut Checks) {
    for size in [1, 2, 3, 4, 8] {
        c.same(read(&[size, 9], Little, |s| s.read_address_size()), (Ok(size), 1));
    }
    for size in [0, 5, 6, 7, 255] {
        let refused = Err(Error::UnsupportedAddressSize(size.into()));
        c.same(read(&[size], Little, |s| s.read_address_size()), (refused, 1));
    }
    c.same(read(&[], Little, |s| s.read_address_size()), (Err(EOF), 0));
}

fn read_offset(c: &mut Checks) {
    c.same(read(EIGHT, Little, |s| s.read_offset(Format::Dwarf32)), (Ok(0x0403_0201), 4));
    c.same(read(EIGHT, Big, |s| s.read_offset(Format::Dwarf64)), (Ok(0x0102_0304_0506_0708), 0));
    c.same(read(&EIGHT[5..], Little, |s| s.read_offset(Format::Dwarf32)), (Err(EOF), 3));
    c.same(read(&EIGHT[1..], Little, |s| s.read_offset(Format::Dwarf64)), (Err(EOF), 7));
}

fn initial_length(c: &mut Checks) {
    let length = |bytes: &[u8], endian| read(bytes, endian, |s| s.read_initial_length());
    let ones = [0xff; 4];
    c.same(length(TABLE, Little), (Ok((12, Format::Dwarf32)), 12));
    c.same(length(BIG_TABLE, Big), (Ok((12, Format::Dwarf32)), 12));
    c.same(length(&[0xef, 0xff, 0xff, 0xff], Little), (Ok((0xffff_ffef, Format::Dwarf32)), 0));
    c.same(length(&join(&[&ones, EIGHT]), Big), (Ok((0x0102_0304_0506_0708, Format::Dwarf64)), 0));
    c.same(
        length(&[0xf0, 0xff, 0xff, 0xff], Little),
        (Err(Error::UnknownReservedLength(0xffff_fff0)), 4),
    );
    c.same(
        length(&[0xff, 0xff, 0xff, 0xfe], Big),
        (Err(Error::UnknownReservedLength(0xffff_fffe)), 4),
    );
    c.same(length(&join(&[&ones, &EIGHT[1..]]), Little), (Err(EOF), 11));
    c.same(length(&ones[1..], Little), (Err(EOF), 3));
    c.same(length(&[], Little), (Err(EOF), 0));
}

fn skip(c: &mut Checks) {
    c.same(read(&[1, 2, 3], Little, |s| s.skip(2)), (Ok(()), 1));
    c.same(read(&[1, 2, 3], Little, |s| s.skip(3)), (Ok(()), 0));
    c.same(read(&[1, 2, 3], Little, |s| s.skip(4)), (Err(EOF), 3));
    c.same(read(&[1, 2, 3], Little, |s| s.skip(u64::MAX)), (Err(EOF), 3));
    c.same(read(&[], Little, |s| s.skip(0)), (Ok(()), 0));
    let mut slice = EndianSlice::new(&[1, 2, 3], Little);
    c.same((slice.skip(1), slice.skip(u64::MAX), slice.len()), (Ok(()), Err(EOF), 2));
}

fn split(c: &mut Checks) {
    let part =
        |bytes, n| read(bytes, Little, |s| s.skip(1).and_then(|_| s.split(n)).map(|p| p.slice()));
    c.same(part(&[1, 2, 3, 4], 2), (Ok(&[2, 3][..]), 1));
    c.same(part(&[1, 2, 3, 4], 0), (Ok(&[][..]), 3));
    c.same(part(&[1, 2, 3, 4], 4), (Err(EOF), 3));
    c.same(part(&[1, 2, 3, 4], u64::MAX), (Err(EOF), 3));
}

fn truncate(c: &mut Checks) {
    let left = |n| {
        let mut slice = EndianSlice::new(&[1, 2, 3, 4], Little);
        slice.skip(1).and_then(|_| slice.truncate(n)).map(|_| slice.slice())
    };
    c.same(left(2), Ok(&[2, 3][..]));
    c.same(left(3), Ok(&[2, 3, 4][..]));
    c.same(left(0), Ok(&[][..]));
    c.same(left(4), Err(EOF));
    c.same(left(u64::MAX), Err(EOF));
    c.same(read(&[1, 2], Little, |s| s.truncate(3)), (Err(EOF), 2));
}

// Addresses

fn wrapping_add_sized(c: &mut Checks) {
    c.same(0xffff_ff00u64.wrapping_add_sized(0x110, 4), 0x10);
    c.same(0xf0u64.wrapping_add_sized(0x20, 1), 0x10);
    c.same(1u64.wrapping_add_sized(2, 2), 3);
    c.same(0xff_ff00u64.wrapping_add_sized(0x110, 3), 0x10);
    c.same(0xffff_fffeu64.wrapping_add_sized(1, 3), 0xff_ffff);
    c.same(u64::MAX.wrapping_add_sized(1, 8), 0);
    c.same(u64::MAX.wrapping_add_sized(1, 0), 0);
    c.same(5u64.wrapping_add_sized(6, 255), 11);
}

fn min_tombstone(c: &mut Checks) {
    c.same([1, 2, 3, 4].map(u64::min_tombstone), [0xfe, 0xfffe, 0xff_fffe, 0xffff_fffe]);
    c.same([8, 9, 255].map(u64::min_tombstone), [u64::MAX - 1; 3]);
    c.same(u64::min_tombstone(0), 0);
}

fn ones_sized(c: &mut Checks) {
    c.same([0, 1, 2, 3, 4].map(u64::ones_sized), [0, 0xff, 0xffff, 0xff_ffff, 0xffff_ffff]);
    c.same([8, 9, 255].map(u64::ones_sized), [u64::MAX; 3]);
}

// Tables and headers

fn get_address(c: &mut Checks) {
    let address = |size, base, index| {
        DebugAddr::new(TABLE, Little).get_address(size, DebugAddrBase(base), DebugAddrIndex(index))
    };
    c.same((address(4, 8, 0), address(4, 8, 1), address(4, 8, 2)), (Ok(0x10), Ok(0x20), Err(EOF)));
    c.same(address(1, 0, 15), Ok(0));
    c.same(address(8, 8, 0), Ok(0x20_0000_0010));
    c.same(address(4, 16, 0), Err(EOF));
    c.same(address(4, 17, TWO_TO_61 * 2), Err(EOF));
    c.same(address(4, u64::MAX, 0), Err(EOF));
    c.same(address(8, 0, TWO_TO_61), Err(Error::UnsupportedOffset));
    c.same(address(8, 0, TWO_TO_61 - 1), Err(EOF));
    c.same(address(1, 0, u64::MAX), Err(EOF));
    c.same(address(5, 8, 0), Err(Error::UnsupportedAddressSize(5)));
    c.same(address(5, 8, 3), Err(EOF));
    c.same(address(0, 8, u64::MAX), Err(Error::UnsupportedAddressSize(0)));
    let big = DebugAddr::new(BIG_TABLE, Big);
    c.same(big.get_address(4, DebugAddrBase(8), DebugAddrIndex(1)), Ok(0x20));
    c.same(DebugAddr::default().get_address(4, DebugAddrBase(0), DebugAddrIndex(0)), Err(EOF));
    let of_three = |section, endian, base, index| {
        DebugAddr::new(section, endian).get_address(3, DebugAddrBase(base), DebugAddrIndex(index))
    };
    for (section, endian) in [(TABLE_3, Little), (BIG_TABLE_3, Big)] {
        c.same([0, 1].map(|index| of_three(section, endian, 8, index)), [Ok(0x10), Ok(0x20)]);
        c.same(of_three(section, endian, 8, 2), Err(EOF));
        c.same(of_three(section, endian, 0, THIRD + 1), Err(Error::UnsupportedOffset));
    }
    c.same(of_three(EIGHT, Little, 2, 1), Ok(0x08_0706));
    c.same(of_three(EIGHT, Big, 2, 1), Ok(0x06_0708));
    c.same(of_three(&[], Little, 0, THIRD), Err(EOF));
    c.same(of_three(&[], Little, 0, THIRD + 1), Err(Error::UnsupportedOffset));
}

/// The headers of a section: offset, length, encoding and base of each, and the refusals, up to
/// the end.
fn headers(section: &[u8]) -> Vec<Result<(u64, u64, Encoding, u64)>> {
    let mut walk = DebugAddr::new(section, Little).headers();
    let mut all = Vec::new();
    loop {
        match walk.next() {
            Ok(Some(h)) => all.push(Ok((h.offset().0, h.length(), h.encoding(), h.base().0))),
            Ok(None) => return all,
            Err(e) => all.push(Err(e)),
        }
    }
}

fn table_next(c: &mut Checks) {
    let wide = join(&[&[0xff; 4], &[12, 0, 0, 0, 0, 0, 0, 0, 5, 0, 8, 0], EIGHT]);
    let first = Ok((0, 12, encoding(5, 4), 8));
    c.same(headers(&join(&[TABLE, &wide])), vec![first, Ok((16, 12, dwarf64(), 32))]);
    let odd = join(&[&[5, 0, 0, 0, 5, 0, 1, 0, 0xaa], TABLE]);
    c.same(headers(&odd), vec![Ok((0, 5, encoding(5, 1), 8)), Ok((9, 12, encoding(5, 4), 17))]);
    c.same(
        headers(&join(&[TABLE_3, TABLE])),
        vec![Ok((0, 10, encoding(5, 3), 8)), Ok((14, 12, encoding(5, 4), 22))],
    );
    let wide_3 = join(&[&[0xff; 4], &[10, 0, 0, 0, 0, 0, 0, 0], &TABLE_3[4..]]);
    c.same(headers(&wide_3), vec![Ok((0, 10, Encoding { address_size: 3, ..dwarf64() }, 16))]);
    c.same(headers(&[]), vec![]);
    c.same(headers(&join(&[TABLE, &TABLE[..15]])), vec![first, Err(EOF)]);
    c.same(headers(&[8, 0, 0, 0, 4, 0, 4, 0, 0, 0, 0, 0]), vec![Err(Error::UnknownVersion(4))]);
    c.same(headers(&[4, 0, 0, 0, 5, 0, 5, 0]), vec![Err(Error::UnsupportedAddressSize(5))]);
    c.same(headers(&[4, 0, 0, 0, 5, 0, 4, 1]), vec![Err(Error::UnsupportedSegmentSize(1))]);
    c.same(headers(&[3, 0, 0, 0, 5, 0, 4, 0]), vec![Err(EOF)]);
    c.same(
        headers(&[0xf0, 0xff, 0xff, 0xff]),
        vec![Err(Error::UnknownReservedLength(0xffff_fff0))],
    );
    let mut big = DebugAddr::new(BIG_TABLE, Big).headers();
    c.same(big.next().map(|h| h.map(|h| h.length())), Ok(Some(12)));
    c.same(big.next().map(|h| h.is_none()), Ok(true));
}

fn table_entry_next(c: &mut Checks) {
    let entries = |section, endian| {
        DebugAddr::new(section, endian).headers().next().unwrap().unwrap().entries()
    };
    for (section, endian) in
        [(TABLE, Little), (BIG_TABLE, Big), (TABLE_3, Little), (BIG_TABLE_3, Big)]
    {
        let mut walk = entries(section, endian);
        c.same(walk.next(), Ok(Some(0x10)));
        c.same(walk.next(), Ok(Some(0x20)));
        c.same(walk.next(), Ok(None));
        c.same(walk.next(), Ok(None));
    }
    let mut short = entries(&[0x0a, 0, 0, 0, 5, 0, 4, 0, 0x10, 0, 0, 0, 0x20, 0, 0, 0], Little);
    c.same(short.next(), Ok(Some(0x10)));
    c.same(short.next(), Err(EOF));
    c.same(short.next(), Ok(None));
    let mut short = entries(&[9, 0, 0, 0, 5, 0, 3, 0, 1, 2, 3, 4, 5, 6], Little);
    c.same(short.next(), Ok(Some(0x03_0201)));
    c.same(short.next(), Err(EOF));
    c.same(short.next(), Ok(None));
}

fn lists_header(c: &mut Checks) {
    let parse = |bytes: &[u8], endian| {
        let mut input = EndianSlice::new(bytes, endian);
        let header = ListsHeader::parse(&mut input);
        (header.map(|h| (h.encoding, h.offset_entry_count, h.size())), input.slice().to_vec())
    };
    let kept = |bytes: &[u8], e| (Err(e), bytes.to_vec());
    c.same(
        parse(&join(&[LISTS, &[9]]), Little),
        (Ok((encoding(5, 4), 2, 12)), LISTS[12..].to_vec()),
    );
    let big = [0, 0, 0, 8, 0, 5, 4, 0, 0, 0, 0, 1];
    c.same(parse(&big, Big), (Ok((encoding(5, 4), 1, 12)), vec![]));
    let wide = join(&[&[0xff; 4], &[9, 0, 0, 0, 0, 0, 0, 0, 5, 0, 8, 0, 3, 0, 0, 0, 0xaa]]);
    c.same(parse(&wide, Little), (Ok((dwarf64(), 3, 20)), vec![0xaa]));
    let three = [8, 0, 0, 0, 5, 0, 3, 0, 0, 0, 0, 0];
    c.same(parse(&three, Little), (Ok((encoding(5, 3), 0, 12)), vec![]));
    let three = [0, 0, 0, 9, 0, 5, 3, 0, 0, 0, 0, 1, 0xaa];
    c.same(parse(&three, Big), (Ok((encoding(5, 3), 1, 12)), vec![0xaa]));
    let bad = [8, 0, 0, 0, 4, 0, 4, 0, 0, 0, 0, 0];
    c.same(parse(&bad, Little), kept(&bad, Error::UnknownVersion(4)));
    let bad = [8, 0, 0, 0, 5, 0, 5, 0, 0, 0, 0, 0];
    c.same(parse(&bad, Little), kept(&bad, Error::UnsupportedAddressSize(5)));
    let bad = [8, 0, 0, 0, 5, 0, 4, 1, 0, 0, 0, 0];
    c.same(parse(&bad, Little), kept(&bad, Error::UnsupportedSegmentSize(1)));
    let bad = [0xf0, 0xff, 0xff, 0xff];
    c.same(parse(&bad, Little), kept(&bad, Error::UnknownReservedLength(0xffff_fff0)));
    let bad = [7, 0, 0, 0, 5, 0, 4, 0, 0, 0, 0, 0];
    c.same(parse(&bad, Little), kept(&bad, EOF));
    c.same(parse(&LISTS[..21], Little), kept(&LISTS[..21], EOF));
    c.same(parse(&[], Little), kept(&[], EOF));
}

/// Eight bytes of ones after a byte: base 1 and the offset there sum to 2^64.
const TOO_FAR: &[u8] = &[0xaa, 0xff, 0xff, 0xff, 0xff, 0xff, 0xff, 0xff, 0xff];

fn range_get_offset(c: &mut Checks) {
    let get = |section, endian, encoding, base, index| {
        let lists = RangeLists::new(DebugRanges::default(), DebugRngLists::new(section, endian));
        lists.get_offset(encoding, DebugRngListsBase(base), DebugRngListsIndex(index)).map(|o| o.0)
    };
    let five = encoding(5, 4);
    c.same(get(LISTS, Little, five, 12, 0), Ok(20));
    c.same(get(LISTS, Little, five, 12, 1), Ok(22));
    c.same(get(LISTS, Little, five, 12, 2), Err(EOF));
    c.same(get(EIGHT, Big, five, 0, 1), Ok(0x0506_0708));
    c.same(get(EIGHT, Little, dwarf64(), 0, 0), Ok(0x0807_0605_0403_0201));
    c.same(get(TOO_FAR, Little, dwarf64(), 0, 0), Ok(0xffff_ffff_ffff_ffaa));
    c.same(get(TOO_FAR, Little, dwarf64(), 1, 0), Err(Error::UnsupportedOffset));
    c.same(get(LISTS, Little, five, 0, 1 << 62), Err(Error::UnsupportedOffset));
    c.same(get(LISTS, Little, five, u64::MAX, 0), Err(EOF));
    c.same(get(&[], Little, five, 0, 0), Err(EOF));
}

fn location_get_offset(c: &mut Checks) {
    let get = |section, endian, encoding, base, index| {
        let lists = LocationLists::new(DebugLoc::default(), DebugLocLists::new(section, endian));
        lists.get_offset(encoding, DebugLocListsBase(base), DebugLocListsIndex(index)).map(|o| o.0)
    };
    let five = encoding(5, 4);
    c.same(get(LISTS, Little, five, 12, 0), Ok(20));
    c.same(get(LISTS, Little, five, 12, 1), Ok(22));
    c.same(get(LISTS, Little, five, 12, 2), Err(EOF));
    c.same(get(EIGHT, Big, five, 0, 1), Ok(0x0506_0708));
    c.same(get(TOO_FAR, Big, dwarf64(), 1, 0), Err(Error::UnsupportedOffset));
    c.same(get(LISTS, Little, dwarf64(), 0, TWO_TO_61), Err(Error::UnsupportedOffset));
    c.same(get(LISTS, Little, five, u64::MAX, u64::MAX), Err(EOF));
    c.same(get(&[], Little, five, 0, 0), Err(EOF));
}

fn range_default_base(c: &mut Checks) {
    let base = |encoding, file| DebugRngListsBase::default_for_encoding_and_file(encoding, file).0;
    c.same(base(encoding(5, 4), DwarfFileType::Dwo), 12);
    c.same(base(dwarf64(), DwarfFileType::Dwo), 20);
    c.same(base(encoding(5, 4), DwarfFileType::Main), 0);
    c.same(base(encoding(4, 4), DwarfFileType::Dwo), 0);
}

fn location_default_base(c: &mut Checks) {
    let base = |encoding, file| DebugLocListsBase::default_for_encoding_and_file(encoding, file).0;
    c.same(base(encoding(5, 4), DwarfFileType::Dwo), 12);
    c.same(base(dwarf64(), DwarfFileType::Dwo), 20);
    c.same(base(dwarf64(), DwarfFileType::Main), 0);
    c.same(base(encoding(4, 4), DwarfFileType::Dwo), 0);
}

// Range lists

/// Range lists of both sections over the same bytes.
fn range_lists(bytes: &[u8], endian: RunTimeEndian) -> RangeLists<'_> {
    RangeLists::new(DebugRanges::new(bytes, endian), DebugRngLists::new(bytes, endian))
}

fn open_ranges<'a>(bytes: &'a [u8], encoding: Encoding, base_address: u64) -> RngListIter<'a> {
    let table = table_of(encoding.address_size);
    let lists = range_lists(bytes, Little);
    lists
        .ranges(RangeListsOffset(0), encoding, base_address, &table, DebugAddrBase(8))
        .expect("an open list")
}

/// An answer, and the walk's place and its count of entries then.
type Step<T> = (Result<Option<T>>, u64, u64);

/// The steps up to the second end.
fn steps<T>(mut call: impl FnMut() -> Step<T>) -> Vec<Step<T>> {
    let (mut all, mut ends) = (Vec::new(), 0);
    while ends < 2 {
        all.push(call());
        ends += usize::from(matches!(all.last(), Some((Ok(None), ..))));
    }
    all
}

/// Their places and counts alone.
fn counts<T>(call: impl FnMut() -> Step<T>) -> Vec<(u64, u64)> {
    steps(call).into_iter().map(|(_, place, entries)| (place, entries)).collect()
}

/// What a walk hands out up to its end, which stays.
fn ranges(bytes: &[u8], encoding: Encoding, base_address: u64) -> Vec<Result<Range>> {
    let mut walk = open_ranges(bytes, encoding, base_address);
    let all = std::iter::from_fn(|| walk.next().transpose()).collect();
    assert_eq!(walk.next(), Ok(None));
    all
}

fn range_open(c: &mut Checks) {
    let open = |bytes, version, size, offset| {
        let lists = range_lists(bytes, Little);
        let table = DebugAddr::default();
        let walk = lists.ranges(
            RangeListsOffset(offset),
            encoding(version, size),
            0,
            &table,
            DebugAddrBase(0),
        );
        walk.and_then(|mut walk| walk.next())
    };
    for version in [2, 4, 5, 6] {
        c.same(open(&[], version, 4, 0), Ok(None));
        c.same(open(&[], version, 4, 1), Err(EOF));
        c.same(open(&[0], version, 1, 1), Ok(None));
        c.same(open(&[], version, 8, u64::MAX), Err(EOF));
        c.same(open(&[0; 6], version, 3, 6), Ok(None));
        c.same(open(&[], version, 3, 1), Err(EOF));
        c.same(open(&[], version, 5, u64::MAX), Err(Error::UnsupportedAddressSize(5)));
    }
    let raw = range_lists(&[0], Little).raw_ranges(RangeListsOffset(2), encoding(5, 4));
    c.same(raw.map(|_| ()), Err(EOF));
    let raw = range_lists(&[0], Little).raw_ranges(RangeListsOffset(1), encoding(5, 4));
    c.same(raw.map(|raw| (raw.place(), raw.entries())), Ok((1, 0)));
    let apart = RangeLists::new(DebugRanges::new(&[1, 2, 0, 0], Little), DebugRngLists::default());
    let walk = apart.ranges(
        RangeListsOffset(1),
        encoding(5, 1),
        0,
        &DebugAddr::default(),
        DebugAddrBase(0),
    );
    c.same(walk.map(|_| ()), Err(EOF));
    let walk = apart.ranges(
        RangeListsOffset(0),
        encoding(4, 1),
        0,
        &DebugAddr::default(),
        DebugAddrBase(0),
    );
    c.same(walk.as_ref().map(|walk| (walk.place(), walk.entries())), Ok((0, 0)));
    c.same(walk.and_then(|mut walk| walk.next()), Ok(Some(at(1, 2))));
    c.same((apart.debug_ranges().reader().len(), apart.debug_rnglists().reader().len()), (4, 0));
}

fn section_of(c: &mut Checks) {
    let (offset, none, base) = (RangeListsOffset(0), DebugAddr::default(), DebugAddrBase(0));
    let ranges = RangeLists::new(
        DebugRanges::new(&[1, 2, 0, 0], Little),
        DebugRngLists::new(&[6, 3, 4, 0], Big),
    );
    let locations = LocationLists::new(
        DebugLoc::new(&[1, 2, 0, 0], Little),
        DebugLocLists::new(&[7, 3, 4, 0, 0], Big),
    );
    for (version, range) in [(0, at(1, 2)), (4, at(1, 2)), (5, at(3, 4)), (65535, at(3, 4))] {
        let found = ranges.lookup(offset, encoding(version, 1), 0, &none, base, range.begin);
        c.same(found, Ok(Some(range)));
        let (offset, main) = (LocationListsOffset(0), DwarfFileType::Main);
        let found =
            locations.lookup(offset, encoding(version, 1), main, 0, &none, base, range.begin);
        c.same(found.map(|l| l.map(|l| l.range)), Ok(Some(range)));
    }
}

/// 2^61 as LEB128: times 8 it is 2^64.
const INDEX_2_61: [u8; 9] = [0x80, 0x80, 0x80, 0x80, 0x80, 0x80, 0x80, 0x80, 0x20];
/// A third of 2^64 + 2 as LEB128.
const PAST_THIRD: [u8; 9] = [0xd6, 0xaa, 0xd5, 0xaa, 0xd5, 0xaa, 0xd5, 0xaa, 0x55];

fn range_next(c: &mut Checks) {
    let five = encoding(5, 4);
    c.same(ranges(&[0], five, 0), vec![]);
    c.same(ranges(&[6, 0x10, 0, 0, 0, 0x20, 0, 0, 0, 0], five, 0), vec![Ok(at(0x10, 0x20))]);
    c.same(ranges(&[6, 0x10, 0, 0, 0, 0x20, 0, 0, 0], five, 0), vec![Ok(at(0x10, 0x20))]);
    c.same(ranges(&[4, 1, 0x82, 0, 0], five, 0x1000), vec![Ok(at(0x1001, 0x1002))]);
    c.same(ranges(&[4, 0, 1, 0], five, 0xffff_fffd), vec![Ok(at(0xffff_fffd, 0xffff_fffe))]);
    c.same(ranges(&[4, 0, 1, 0], five, 0xffff_fffe), vec![]);
    c.same(ranges(&[4, 0x80, 2, 0x90, 2, 0], five, 0xffff_ff00), vec![Ok(at(0, 0x10))]);
    c.same(ranges(&[7, 0xf0, 0x0f, 0], encoding(5, 1), 0), vec![Ok(at(0xf0, 0xff))]);
    c.same(ranges(&[7, 0xf0, 0x20, 0], encoding(5, 1), 0), vec![]);
    let bare = [0xff, 0xff, 0, 0x20, 1, 0, 3, 0, 0, 0, 0, 0];
    c.same(ranges(&bare, encoding(4, 2), 0), vec![Ok(at(0x2001, 0x2003))]);
    c.same(ranges(&[5, 5, 1, 2, 0, 0, 9, 9], encoding(4, 1), 0), vec![Ok(at(1, 2))]);
    c.same(ranges(&[1, 2, 0, 0], encoding(2, 1), 0), vec![Ok(at(1, 2))]);
    c.same(ranges(&[2, 0, 2, 3, 0, 8, 0], five, 0), vec![Err(EOF), Ok(at(0x10, 0x18))]);
    c.same(ranges(&[2, 0, 1, 0], five, 0), vec![Ok(at(0x10, 0x20))]);
    c.same(ranges(&[1, 1, 4, 0, 5, 0], five, 0), vec![Ok(at(0x20, 0x25))]);
    c.same(ranges(&[5, 0, 0x10, 0, 0, 4, 1, 2, 0], five, 0), vec![Ok(at(0x1001, 0x1002))]);
    let too_far = join(&[&[3], &INDEX_2_61, &[0], &[7], &[1, 0, 0, 0, 0, 0, 0, 0], &[1, 0]]);
    let eight = encoding(5, 8);
    c.same(ranges(&too_far, eight, 0), vec![Err(Error::UnsupportedOffset), Ok(at(1, 2))]);
    c.same(ranges(&[8, 4, 1, 2], five, 0), vec![Err(Error::UnknownRangeListsEntry(8))]);
    c.same(ranges(&[6, 0x10, 0], five, 0), vec![Err(EOF)]);
    c.same(
        ranges(&join(&[&[4], &NINE, &[2], &[0; 9]]), five, 0),
        vec![Err(Error::BadUnsignedLeb128)],
    );
    c.same(ranges(&[], five, 0), vec![]);
    let three = encoding(5, 3);
    c.same(ranges(&[6, 0x10, 0, 0, 0x20, 0, 0, 0], three, 0), vec![Ok(at(0x10, 0x20))]);
    c.same(ranges(&[6, 1, 2, 3, 4, 5, 6], three, 0), vec![Ok(at(0x03_0201, 0x06_0504))]);
    c.same(ranges(&[4, 0, 1, 0], three, 0xff_fffd), vec![Ok(at(0xff_fffd, 0xff_fffe))]);
    c.same(ranges(&[4, 0, 1, 0], three, 0xff_fffe), vec![]);
    c.same(ranges(&[4, 0x80, 2, 0x90, 2, 0], three, 0xff_ff00), vec![Ok(at(0, 0x10))]);
    c.same(ranges(&[7, 0xf0, 0xff, 0xff, 0x0f, 0], three, 0), vec![Ok(at(0xff_fff0, 0xff_ffff))]);
    c.same(ranges(&[7, 0xf0, 0xff, 0xff, 0x10, 0], three, 0), vec![]);
    let bare = [0xff, 0xff, 0xff, 0, 0x20, 0, 1, 0, 0, 3, 0, 0, 0, 0, 0, 0, 0, 0];
    c.same(ranges(&bare, encoding(4, 3), 0), vec![Ok(at(0x2001, 0x2003))]);
    // No base selection: of 00ffff not all bits are set.
    let bare = [0xff, 0xff, 0, 0xff, 0xff, 1];
    c.same(ranges(&bare, encoding(4, 3), 0), vec![Ok(at(0xffff, 0x1_ffff))]);
    c.same(ranges(&[6, 0x10, 0], three, 0), vec![Err(EOF)]);
    c.same(ranges(&[2, 0, 2, 3, 0, 8, 0], three, 0), vec![Err(EOF), Ok(at(0x10, 0x18))]);
    c.same(ranges(&[1, 1, 4, 0, 5, 0], three, 0), vec![Ok(at(0x20, 0x25))]);
    let too_far = join(&[&[3], &PAST_THIRD, &[0, 0]]);
    c.same(ranges(&too_far, three, 0), vec![Err(Error::UnsupportedOffset)]);
    for (list, table, size) in [
        (&[3, 1, 8, 6, 0, 0, 0, 0x10, 0, 0, 0, 0x20, 0][..], BIG_TABLE, 4),
        (&[3, 1, 8, 6, 0, 0, 0x10, 0, 0, 0x20, 0], BIG_TABLE_3, 3),
    ] {
        let (big, table) = (range_lists(list, Big), DebugAddr::new(table, Big));
        let walk = big.ranges(RangeListsOffset(0), encoding(5, size), 0, &table, DebugAddrBase(8));
        let mut walk = walk.expect("an open list");
        c.same(
            (walk.next(), walk.next(), walk.next()),
            (Ok(Some(at(0x20, 0x28))), Ok(Some(at(0x10, 0x20))), Ok(None)),
        );
        c.same(walk.entries(), 3);
    }
    ranges_counted(c);
}

/// Entries that count, and those that don't.
fn ranges_counted(c: &mut Checks) {
    let counted = |bytes: &[u8], encoding| {
        let mut walk = open_ranges(bytes, encoding, 0);
        steps(|| (walk.next(), walk.place(), walk.entries()))
    };
    let (five, end) = (encoding(5, 4), Ok(None));
    let is = |begin, end| Ok(Some(at(begin, end)));
    c.same(counted(&[], five), vec![(end, 0, 0), (end, 0, 0)]);
    c.same(counted(&[0], five), vec![(end, 1, 1), (end, 1, 1)]);
    let marked = [6, 0x10, 0, 0, 0, 0x20, 0, 0, 0, 0];
    c.same(counted(&marked, five), vec![(is(0x10, 0x20), 9, 1), (end, 10, 2), (end, 10, 2)]);
    c.same(counted(&marked[..9], five), vec![(is(0x10, 0x20), 9, 1), (end, 9, 1), (end, 9, 1)]);
    c.same(
        counted(BASE_AND_PAIRS, five),
        vec![(is(0x1001, 0x1002), 8, 2), (is(0x1005, 0x1006), 14, 4), (end, 16, 5), (end, 16, 5)],
    );
    c.same(
        counted(&[2, 0, 2, 3, 0, 8, 0], five),
        vec![(Err(EOF), 3, 1), (is(0x10, 0x18), 6, 2), (end, 7, 3), (end, 7, 3)],
    );
    let unknown = Err(Error::UnknownRangeListsEntry(8));
    c.same(
        counted(&[7, 0x10, 0, 0, 0, 1, 8], five),
        vec![(is(0x10, 0x11), 6, 1), (unknown, 7, 1), (end, 7, 1), (end, 7, 1)],
    );
    c.same(counted(&[8], five), vec![(unknown, 1, 0), (end, 1, 0), (end, 1, 0)]);
    let bare = [0xff, 0xff, 0, 0x20, 3, 0, 3, 0, 1, 0, 3, 0, 0, 0, 0, 0, 1];
    c.same(
        counted(&bare, encoding(4, 2)),
        vec![(is(0x2001, 0x2003), 12, 3), (end, 17, 4), (end, 17, 4)],
    );
    // A copy goes on counting by itself.
    let mut walk = open_ranges(BASE_AND_PAIRS, five, 0);
    let first = walk.clone();
    c.same((walk.next(), walk.entries(), first.entries()), (is(0x1001, 0x1002), 2, 0));
}

/// A base, three offset pairs of which the second is empty, and the end mark.
const BASE_AND_PAIRS: &[u8] = &[5, 0, 0x10, 0, 0, 4, 1, 2, 4, 3, 3, 4, 5, 6, 0, 0xff];

/// One entry of each kind, size 1, and the end mark.
const RANGE_KINDS: &[u8] = &[1, 9, 2, 8, 7, 3, 6, 5, 4, 4, 5, 5, 0x33, 6, 2, 3, 7, 1, 2, 0, 9];

fn range_kinds() -> Vec<RawRngListEntry> {
    use RawRngListEntry::*;
    vec![
        BaseAddressx { addr: DebugAddrIndex(9) },
        StartxEndx { begin: DebugAddrIndex(8), end: DebugAddrIndex(7) },
        StartxLength { begin: DebugAddrIndex(6), length: 5 },
        OffsetPair { begin: 4, end: 5 },
        BaseAddress { addr: 0x33 },
        StartEnd { begin: 2, end: 3 },
        StartLength { begin: 1, length: 2 },
    ]
}

fn range_next_raw(c: &mut Checks) {
    use RawRngListEntry::*;
    let raw = |bytes: &[u8], encoding| {
        let mut walk = open_ranges(bytes, encoding, 0);
        let all: Vec<_> = std::iter::from_fn(|| walk.next_raw().transpose()).collect();
        (all, walk.next_raw())
    };
    let kinds = range_kinds().into_iter().map(Ok).collect::<Vec<_>>();
    c.same(raw(RANGE_KINDS, encoding(5, 1)), (kinds.clone(), Ok(None)));
    let mut walk = open_ranges(RANGE_KINDS, encoding(5, 1), 0);
    let counted: Vec<(u64, u64)> = [2, 5, 8, 11, 13, 16, 19, 21].into_iter().zip(1..).collect();
    let counted = [&counted[..], &[(21, 8)]].concat();
    c.same(counts(|| (walk.next_raw(), walk.place(), walk.entries())), counted.clone());
    let lists = range_lists(RANGE_KINDS, Little);
    let mut walk = lists.raw_ranges(RangeListsOffset(0), encoding(5, 1)).unwrap();
    c.same(counts(|| (walk.next(), walk.place(), walk.entries())), counted);
    let mut walk = lists.raw_ranges(RangeListsOffset(0), encoding(5, 1)).unwrap();
    c.same(std::iter::from_fn(|| walk.next().transpose()).collect::<Vec<_>>(), kinds);
    // A refused entry is not counted, nor is the section's end.
    for (bytes, version, counted) in [
        (&[4, 1, 2, 8][..], 5, vec![(3, 1), (4, 1), (4, 1), (4, 1)]),
        (&[4, 1, 2, 4], 5, vec![(3, 1), (4, 1), (4, 1), (4, 1)]),
        (&[4, 1, 2], 5, vec![(3, 1), (3, 1), (3, 1)]),
        (&[0xff, 0x20, 3, 5, 0, 0, 1], 4, vec![(2, 1), (4, 2), (7, 3), (7, 3)]),
        (&[0xff, 0x20, 3], 4, vec![(2, 1), (3, 1), (3, 1), (3, 1)]),
    ] {
        let mut walk = open_ranges(bytes, encoding(version, 1), 0);
        c.same(counts(|| (walk.next_raw(), walk.place(), walk.entries())), counted);
    }
    let bare = [0xff, 0x20, 3, 5, 0, 0, 1, 2];
    let pair = AddressOrOffsetPair { begin: 3, end: 5 };
    c.same(raw(&bare, encoding(4, 1)), (vec![Ok(BaseAddress { addr: 0x20 }), Ok(pair)], Ok(None)));
    c.same(raw(&[3, 5, 0], encoding(4, 1)), (vec![Ok(pair), Err(EOF)], Ok(None)));
    let addr = 0x03_0201;
    let three = [5, 1, 2, 3, 6, 1, 2, 3, 4, 5, 6, 7, 1, 2, 3, 0x80, 1, 6, 1, 2, 3, 4, 5];
    let start_end = StartEnd { begin: addr, end: 0x06_0504 };
    let start_length = StartLength { begin: addr, length: 0x80 };
    c.same(
        raw(&three, encoding(5, 3)),
        (vec![Ok(BaseAddress { addr }), Ok(start_end), Ok(start_length), Err(EOF)], Ok(None)),
    );
    let bare = [0xff, 0xff, 0xff, 1, 2, 3, 3, 0, 0, 5, 0, 0, 0, 0, 0, 0, 0];
    c.same(
        raw(&bare, encoding(4, 3)),
        (vec![Ok(BaseAddress { addr }), Ok(pair), Err(EOF)], Ok(None)),
    );
    c.same(raw(&[8, 0], encoding(5, 1)), (vec![Err(Error::UnknownRangeListsEntry(8))], Ok(None)));
    c.same(
        raw(&[0xff], encoding(5, 1)),
        (vec![Err(Error::UnknownRangeListsEntry(0xff))], Ok(None)),
    );
    c.same(
        raw(&join(&[&[4], &NINE, &[2]]), encoding(5, 1)),
        (vec![Err(Error::BadUnsignedLeb128)], Ok(None)),
    );
    c.same(raw(&[], encoding(5, 1)), (vec![], Ok(None)));
    padded_ranges(c);
}

fn padded_ranges(c: &mut Checks) {
    use RawRngListEntry::*;
    let noted = |bytes: &[u8], encoding| {
        let mut walk = open_ranges(bytes, encoding, 0);
        steps(|| (walk.next_raw_noted(), walk.place(), walk.entries()))
    };
    let (five, end) = (encoding(5, 4), Ok(None));
    let is = |entry, padded| Ok(Some(Noted { entry, padded }));
    // One entry, what is noted of it, and the place behind it; then the list's end.
    let pair = OffsetPair { begin: 1, end: 2 };
    let first = BaseAddressx { addr: DebugAddrIndex(0) };
    let length = StartLength { begin: 0x10, length: 0x10 };
    let start_end = StartEnd { begin: 0x10, end: 0x20 };
    let bare = AddressOrOffsetPair { begin: 1, end: 2 };
    let half = 1 << 63;
    for (bytes, encoding, entry, padded, place) in [
        (&[4, 1, 0x82, 0, 0][..], five, pair, true, 4),
        (&[4, 0x81, 0, 2], five, pair, true, 4),
        (&[4, 1, 2, 0], five, pair, false, 3),
        (&[1, 0x80, 0, 0], five, first, true, 3),
        (&[7, 0x10, 0, 0, 0, 0x90, 0, 0], five, length, true, 7),
        (&[6, 0x10, 0, 0, 0, 0x20, 0, 0, 0, 0], five, start_end, false, 9),
        (&[1, 0, 2, 0, 0, 0, 0, 0], encoding(4, 2), bare, false, 4),
        (
            &join(&[&[4], &NINE, &[1], &NINE, &[1]]),
            five,
            OffsetPair { begin: half, end: half },
            false,
            21,
        ),
        (
            &join(&[&[4], &NINE, &[1], &NINE, &[0]]),
            five,
            OffsetPair { begin: half, end: 0 },
            true,
            21,
        ),
    ] {
        let (len, marked) = (bytes.len() as u64, u64::from(place < bytes.len() as u64));
        let expected = vec![(is(entry, padded), place, 1), (end, len, 1 + marked)];
        c.same(noted(bytes, encoding), [&expected[..], &[(end, len, 1 + marked)]].concat());
    }
    // Refused, and at the end, whatever was read before; each entry by its own numbers.
    let end = |place, entries| [(end, place, entries), (end, place, entries)];
    let refused = |bytes: &[u8], e| {
        let len = bytes.len() as u64;
        [&[(Err(e), len, 0)][..], &end(len, 0)].concat()
    };
    for (bytes, e) in [
        (&[4, 0x80, 0][..], EOF),
        (&join(&[&[4, 0x80, 0], &NINE, &[2]]), Error::BadUnsignedLeb128),
        (&[8, 0x80, 0], Error::UnknownRangeListsEntry(8)),
    ] {
        c.same(noted(bytes, five), refused(bytes, e));
    }
    let several = [1, 0x80, 0, 1, 0, 2, 0x80, 0, 0x81, 0, 3, 0, 1, 4, 0, 0x81, 0, 8, 0x80, 0];
    let index = DebugAddrIndex;
    let entries = [
        (is(first, true), 3, 1),
        (is(first, false), 5, 2),
        (is(StartxEndx { begin: index(0), end: index(1) }, true), 10, 3),
        (is(StartxLength { begin: index(0), length: 1 }, false), 13, 4),
        (is(OffsetPair { begin: 0, end: 1 }, true), 17, 5),
        (Err(Error::UnknownRangeListsEntry(8)), 20, 5),
    ];
    c.same(noted(&several, five), [&entries[..], &end(20, 5)].concat());
    c.same(noted(&[], five), end(0, 0).to_vec());
    for version in [2, 4, 5, 6] {
        entries_padded(c, false, false, version);
    }
}

/// The operands of a bare pair and of kinds, as the scope has them: n is a LEB128 number, a an
/// address, l a length, and x an expression, which begins with its length. From version 5 on these
/// two lengths are LEB128; before, l has four bytes and that of x two.
const RANGE_OPERANDS: [&str; 8] = ["aa", "n", "nn", "nn", "nn", "a", "aa", "an"];
const LOCATION_OPERANDS: [&str; 9] = ["aax", "n", "nnx", "nlx", "nnx", "x", "a", "aax", "anx"];

/// What is written into an entry: two numbers, a length, and how many bytes are added to a number
/// that is padded. Where a length is not LEB128, this one is its first byte, and 00 the others.
const WRITTEN: [([u64; 2], u64, usize); 5] = [
    ([1, 2], 1, 1),
    ([0, 0x7f], 0, 1),
    ([0x7f, 0], 2, 9),
    ([0x80, 0x3fff], 0x80, 1),
    ([0x4000, u64::MAX >> 1], 0x80, 1),
];

fn is_leb128(operand: char, version: u16) -> bool {
    operand == 'n' || (operand != 'a' && version >= 5)
}

/// A raw entry as its kind, two numbers, and its expression's bytes and offset.
type Raw<'a> = (usize, u64, u64, &'a [u8], usize);

/// An entry at place 2, or for kind 0 a bare pair, as bytes and as it is read, its expression by
/// length and offset. Its LEB128 numbers are padded as the bits of `which` say, the first by the
/// lowest. Other bytes before it and in it are like padded numbers.
fn entry(
    operands: &str,
    kind: usize,
    encoding: Encoding,
    endian: RunTimeEndian,
    (numbers, length, padding): ([u64; 2], u64, usize),
    mut which: u32,
) -> (Vec<u8>, [u64; 2], (usize, usize)) {
    let mut bytes = vec![0x80, 0];
    if kind != 0 {
        bytes.push(kind as u8);
    }
    let (mut told, mut n, mut expression) = ([0; 2], 0, (0, 0));
    for operand in operands.chars() {
        let number = if is_leb128(operand, encoding.version) {
            let number = if operand == 'x' { length } else { numbers[n] };
            bytes.extend(leb128(number, if which % 2 == 1 { padding } else { 0 }));
            which /= 2;
            number
        } else {
            let width = match operand {
                'a' => encoding.address_size.into(),
                'l' => 4,
                _ => 2,
            };
            let begin = match operand {
                // A bare pair begins like kind 4 with a padded number.
                'a' if kind == 0 && n == 0 => [4, 0x80],
                'a' => [0x80, 0],
                _ => [length as u8, 0],
            };
            let fixed = &join(&[&begin, &[0; 6]])[..width];
            bytes.extend(fixed);
            let value = |number, byte: &u8| number << 8 | u64::from(*byte);
            match endian {
                Big => fixed.iter().fold(0, value),
                Little => fixed.iter().rev().fold(0, value),
            }
        };
        if operand == 'x' {
            expression = (number as usize, bytes.len());
            bytes.extend([&[0x80], &[0; 0x8000][..]].concat().iter().take(number as usize));
        } else {
            told[n] = number;
            n += 1;
        }
    }
    (bytes, told, expression)
}

/// The entry at place 2 by each call that reads one, and what is noted where the call does.
fn by_each_call<'a>(
    locations: bool,
    split: bool,
    bytes: &'a [u8],
    endian: RunTimeEndian,
    encoding: Encoding,
) -> [Step<(Raw<'a>, Option<bool>)>; 4] {
    macro_rules! calls {
        ($raw:expr, $walk:expr, $told:expr) => {{
            let (mut raw, mut walk) = ($raw.expect("an open list"), $walk.expect("an open list"));
            let (mut plain_raw, mut plain_walk) = (raw.clone(), walk.clone());
            let noted = |noted: Noted<_>| ($told(noted.entry), Some(noted.padded));
            let plain = |entry| ($told(entry), None);
            [
                (raw.next_noted().map(|e| e.map(noted)), raw.place(), raw.entries()),
                (walk.next_raw_noted().map(|e| e.map(noted)), walk.place(), walk.entries()),
                (plain_raw.next().map(|e| e.map(plain)), plain_raw.place(), plain_raw.entries()),
                (
                    plain_walk.next_raw().map(|e| e.map(plain)),
                    plain_walk.place(),
                    plain_walk.entries(),
                ),
            ]
        }};
    }
    let (table, base) = (DebugAddr::default(), DebugAddrBase(0));
    let (at, l_at) = (RangeListsOffset(2), LocationListsOffset(2));
    let (ranges, in_locations) = (range_lists(bytes, endian), location_lists(bytes, endian));
    match (locations, split) {
        (false, _) => calls!(
            ranges.raw_ranges(at, encoding),
            ranges.ranges(at, encoding, 7, &table, base),
            raw_range
        ),
        (true, false) => calls!(
            in_locations.raw_locations(l_at, encoding),
            in_locations.locations(l_at, encoding, 7, &table, base),
            raw_location
        ),
        (true, true) => calls!(
            in_locations.raw_locations_dwo(l_at, encoding),
            in_locations.locations_dwo(l_at, encoding, 7, &table, base),
            raw_location
        ),
    }
}

/// Every kind of a version's entries, with none of its LEB128 numbers padded, each of them and any of
/// them, in both orders and of all sizes; whole, with bytes behind them, and cut short.
fn entries_padded(c: &mut Checks, locations: bool, split: bool, version: u16) {
    let operands: &[&str] = if locations { &LOCATION_OPERANDS } else { &RANGE_OPERANDS };
    let kinds = if version >= 5 || split { 1..operands.len() } else { 0..1 };
    for (size, endian) in [1, 2, 3, 4, 8].into_iter().flat_map(|size| [(size, Little), (size, Big)])
    {
        for kind in kinds.clone() {
            let (encoding, operands) = (encoding(version, size), operands[kind]);
            let choices = 1 << operands.chars().filter(|o| is_leb128(*o, version)).count();
            let mut wrong = Vec::new();
            for (written, which) in
                WRITTEN.into_iter().flat_map(|written| (0..choices).map(move |n| (written, n)))
            {
                let (bytes, [first, second], (length, offset)) =
                    entry(operands, kind, encoding, endian, written, which);
                let (end, more) = (bytes.len(), join(&[&bytes, &[0x80, 0]]));
                let mut ask = |len: usize, expected: [Step<_>; 4]| {
                    let got = by_each_call(locations, split, &more[..len], endian, encoding);
                    if got != expected {
                        wrong.push((written, which, len));
                    }
                };
                let told = (kind, first, second, &bytes[offset..offset + length], offset);
                for len in end..=end + 2 {
                    let is = |padded| (Ok(Some((told, padded))), end as u64, 1);
                    let (noted, plain) = (is(Some(which != 0)), is(None));
                    ask(len, [noted, noted, plain, plain]);
                }
                for len in (3..end).filter(|len| *len < 40 || *len == end - 1) {
                    ask(len, [(Err(EOF), len as u64, 0); 4]);
                }
            }
            c.same(
                (version, split, size, endian, kind, wrong),
                (version, split, size, endian, kind, vec![]),
            );
        }
        // A base selection, which stands among bare pairs.
        if kinds.start == 0 {
            let (width, encoding) = (usize::from(size), encoding(version, size));
            let mut address = vec![0; width];
            address[if endian == Big { width - 1 } else { 0 }] = 0x80;
            let bytes = join(&[&[0x80, 0], &vec![0xff; width], &address, &[0x80, 0]]);
            let kind = if locations { 6 } else { 5 };
            let is = |padded| {
                let told = (kind, 0x80, 0, &[][..], 0);
                (Ok(Some((told, padded))), 2 + 2 * u64::from(size), 1)
            };
            let (noted, plain) = (is(Some(false)), is(None));
            let got = by_each_call(locations, split, &bytes, endian, encoding);
            c.same(got, [noted, noted, plain, plain]);
        }
    }
}

fn raw_range<'a>(raw: RawRngListEntry) -> Raw<'a> {
    use RawRngListEntry::*;
    let (kind, first, second) = match raw {
        AddressOrOffsetPair { begin, end } => (0, begin, end),
        BaseAddressx { addr } => (1, addr.0, 0),
        StartxEndx { begin, end } => (2, begin.0, end.0),
        StartxLength { begin, length } => (3, begin.0, length),
        OffsetPair { begin, end } => (4, begin, end),
        BaseAddress { addr } => (5, addr, 0),
        StartEnd { begin, end } => (6, begin, end),
        StartLength { begin, length } => (7, begin, length),
    };
    (kind, first, second, &[], 0)
}

fn range_convert_raw(c: &mut Checks) {
    use RawRngListEntry::*;
    let mut walk = open_ranges(&[4, 1, 2, 0], encoding(5, 4), 0x100);
    let index = DebugAddrIndex;
    c.same(walk.convert_raw(OffsetPair { begin: 1, end: 2 }), Ok(Some(at(0x101, 0x102))));
    c.same(walk.convert_raw(OffsetPair { begin: 2, end: 2 }), Ok(None));
    c.same(walk.convert_raw(AddressOrOffsetPair { begin: 3, end: 4 }), Ok(Some(at(0x103, 0x104))));
    c.same(walk.convert_raw(BaseAddress { addr: 0x200 }), Ok(None));
    c.same(walk.convert_raw(OffsetPair { begin: 1, end: 2 }), Ok(Some(at(0x201, 0x202))));
    c.same(walk.convert_raw(BaseAddressx { addr: index(1) }), Ok(None));
    c.same(walk.convert_raw(OffsetPair { begin: 1, end: 2 }), Ok(Some(at(0x21, 0x22))));
    c.same(walk.convert_raw(BaseAddressx { addr: index(2) }), Err(EOF));
    c.same(
        walk.convert_raw(StartxEndx { begin: index(0), end: index(1) }),
        Ok(Some(at(0x10, 0x20))),
    );
    c.same(walk.convert_raw(StartxEndx { begin: index(1), end: index(0) }), Ok(None));
    c.same(
        walk.convert_raw(StartxEndx { begin: index(u64::MAX), end: index(0) }),
        Err(Error::UnsupportedOffset),
    );
    c.same(walk.convert_raw(StartxLength { begin: index(1), length: 5 }), Ok(Some(at(0x20, 0x25))));
    c.same(walk.convert_raw(StartEnd { begin: 5, end: 7 }), Ok(Some(at(5, 7))));
    c.same(walk.convert_raw(StartEnd { begin: 0xffff_fffe, end: u64::MAX }), Ok(None));
    c.same(walk.convert_raw(StartLength { begin: 5, length: 7 }), Ok(Some(at(5, 12))));
    c.same(walk.convert_raw(StartLength { begin: 5, length: u64::MAX }), Ok(None));
    // Place and count have not moved, and the base is the second address.
    c.same((walk.place(), walk.entries()), (0, 0));
    c.same(walk.next(), Ok(Some(at(0x21, 0x22))));
    c.same(walk.next(), Ok(None));
    let mut walk = open_ranges(BASE_AND_PAIRS, encoding(5, 4), 0);
    for (place, entries, converted) in
        [(5, 1, None), (8, 2, Some(at(0x1001, 0x1002))), (11, 3, None)]
    {
        let raw = walk.next_raw().unwrap().unwrap();
        c.same((walk.place(), walk.entries()), (place, entries));
        c.same(walk.convert_raw(raw), Ok(converted));
        c.same((walk.place(), walk.entries()), (place, entries));
    }
    let refused = walk.convert_raw(StartxLength { begin: index(2), length: 1 });
    c.same((refused, walk.place(), walk.entries()), (Err(EOF), 11, 3));
    c.same((walk.next(), walk.entries()), (Ok(Some(at(0x1005, 0x1006))), 4));
    c.same((walk.next(), walk.entries()), (Ok(None), 5));
    let pair = OffsetPair { begin: 1, end: 2 };
    c.same((walk.convert_raw(pair), walk.entries()), (Ok(Some(at(0x1001, 0x1002))), 5));
    c.same((walk.next_raw(), walk.entries()), (Ok(None), 5));
    let mut walk = open_ranges(&[0], encoding(5, 3), 0x100);
    let pair = OffsetPair { begin: 0xff_ff00, end: 0xff_ff10 };
    c.same(walk.convert_raw(pair), Ok(Some(at(0, 0x10))));
    c.same(walk.convert_raw(BaseAddress { addr: 0xff_fffe }), Ok(None));
    c.same(walk.convert_raw(OffsetPair { begin: 0x10, end: 0x20 }), Ok(None));
    c.same(walk.convert_raw(BaseAddressx { addr: index(1) }), Ok(None));
    c.same(walk.convert_raw(AddressOrOffsetPair { begin: 1, end: 2 }), Ok(Some(at(0x21, 0x22))));
    let (begin, end) = (0xff_fffd, 0xff_ffff);
    c.same(walk.convert_raw(StartEnd { begin, end }), Ok(Some(at(begin, end))));
    c.same(walk.convert_raw(StartEnd { begin: begin + 1, end }), Ok(None));
    c.same(walk.convert_raw(StartLength { begin, length: 2 }), Ok(Some(at(begin, end))));
    c.same(walk.convert_raw(StartLength { begin, length: 3 }), Ok(None));
    c.same(
        walk.convert_raw(StartxEndx { begin: index(0), end: index(1) }),
        Ok(Some(at(0x10, 0x20))),
    );
    c.same(walk.convert_raw(StartxEndx { begin: index(0), end: index(2) }), Err(EOF));
    let length = 0xff_ffdf;
    c.same(walk.convert_raw(StartxLength { begin: index(1), length }), Ok(Some(at(0x20, end))));
    c.same(walk.convert_raw(StartxLength { begin: index(1), length: length + 1 }), Ok(None));
    c.same(walk.convert_raw(StartxLength { begin: index(THIRD), length }), Err(EOF));
    c.same(
        walk.convert_raw(StartxLength { begin: index(THIRD + 1), length }),
        Err(Error::UnsupportedOffset),
    );
    // Entries with padded numbers come to what they come to without.
    let bytes = [
        1, 0x81, 0, 4, 0x81, 0, 0x82, 0x80, 0, 2, 0x80, 0, 0x81, 0, 3, 0x81, 0, 0x85, 0, 7, 5, 0,
        0, 0, 0x87, 0, 0,
    ];
    let found = [at(0x21, 0x22), at(0x10, 0x20), at(0x20, 0x25), at(5, 12)].map(Some);
    let mut walk = open_ranges(&bytes, encoding(5, 4), 0x100);
    for expected in [&[None][..], &found].concat() {
        let Noted { entry, padded } = walk.next_raw_noted().unwrap().unwrap();
        c.same((padded, walk.convert_raw(entry)), (true, Ok(expected)));
    }
    c.same(walk.next_raw_noted(), Ok(None));
    let walk = open_ranges(&bytes, encoding(5, 4), 0x100);
    c.same(walk.map(Result::ok).collect::<Vec<_>>(), found.to_vec());
}

fn range_lookup(c: &mut Checks) {
    let bytes = [7, 0x10, 0, 0, 0, 8, 3, 1, 8, 7, 0x12, 0, 0, 0, 1, 8];
    let lookup = |end, size, offset, address| {
        let (lists, table) = (range_lists(&bytes[..end], Little), DebugAddr::new(TABLE, Little));
        let (offset, encoding) = (RangeListsOffset(offset), encoding(5, size));
        lists.lookup(offset, encoding, 0, &table, DebugAddrBase(8), address)
    };
    c.same(lookup(15, 4, 0, 0x10), Ok(Some(at(0x10, 0x18))));
    c.same(lookup(15, 4, 0, 0x17), Ok(Some(at(0x10, 0x18))));
    c.same(lookup(16, 4, 0, 0x27), Ok(Some(at(0x20, 0x28))));
    c.same(lookup(16, 4, 9, 0x12), Ok(Some(at(0x12, 0x13))));
    c.same(lookup(15, 4, 0, 0x18), Ok(None));
    c.same(lookup(15, 4, 0, u64::MAX), Ok(None));
    c.same(lookup(16, 4, 0, 0x18), Err(Error::UnknownRangeListsEntry(8)));
    c.same(lookup(16, 4, u64::MAX, 0x10), Err(EOF));
    c.same(lookup(0, 4, 0, 0), Ok(None));
    c.same(lookup(0, 4, 1, 0), Err(EOF));
    c.same(lookup(16, 5, u64::MAX, 0), Err(Error::UnsupportedAddressSize(5)));
    for (table, size) in [(BIG_TABLE, 4), (BIG_TABLE_3, 3)] {
        let (big, table) = (range_lists(&[3, 0, 8, 0], Big), DebugAddr::new(table, Big));
        let (offset, encoding) = (RangeListsOffset(0), encoding(5, size));
        let got = big.lookup(offset, encoding, 0, &table, DebugAddrBase(8), 0x10);
        c.same(got, Ok(Some(at(0x10, 0x18))));
    }
    let three = [7, 1, 2, 3, 8, 3, 1, 8, 7, 0xf0, 0xff, 0xff, 0x10, 6, 0x10, 0];
    let lookup = |end, offset, address| {
        let (lists, table) = (range_lists(&three[..end], Little), table_of(3));
        let (offset, base) = (RangeListsOffset(offset), DebugAddrBase(8));
        lists.lookup(offset, encoding(5, 3), 0, &table, base, address)
    };
    c.same(lookup(16, 0, 0x03_0208), Ok(Some(at(0x03_0201, 0x03_0209))));
    c.same(lookup(16, 0, 0x27), Ok(Some(at(0x20, 0x28))));
    c.same(lookup(13, 0, 0xff_fff0), Ok(None));
    c.same(lookup(16, 0, 0x03_0209), Err(EOF));
    c.same(lookup(0, 1, 0), Err(EOF));
    let bare = range_lists(&[1, 3, 0, 0], Little);
    let none = DebugAddr::default();
    let got = bare.lookup(RangeListsOffset(0), encoding(4, 1), 0x40, &none, DebugAddrBase(8), 0x42);
    c.same(got, Ok(Some(at(0x41, 0x43))));
}

// Location lists

/// Location lists of both sections over the same bytes.
fn location_lists(bytes: &[u8], endian: RunTimeEndian) -> LocationLists<'_> {
    LocationLists::new(DebugLoc::new(bytes, endian), DebugLocLists::new(bytes, endian))
}

fn open_locations<'a>(
    bytes: &'a [u8],
    encoding: Encoding,
    split: bool,
    base_address: u64,
) -> LocListIter<'a> {
    let (lists, table) = (location_lists(bytes, Little), table_of(encoding.address_size));
    let (offset, base) = (LocationListsOffset(0), DebugAddrBase(8));
    let walk = if split {
        lists.locations_dwo(offset, encoding, base_address, &table, base)
    } else {
        lists.locations(offset, encoding, base_address, &table, base)
    };
    walk.expect("an open list")
}

/// A location's range, and its expression's bytes and offset.
type Told<'a> = (Range, &'a [u8], usize);

fn told<'a>(l: LocationListEntry<'a>) -> Told<'a> {
    (l.range, l.data.bytes(), l.data.offset())
}

/// What a walk hands out up to its end, which stays.
fn locations<'a>(
    bytes: &'a [u8],
    encoding: Encoding,
    split: bool,
    base: u64,
) -> Vec<Result<Told<'a>>> {
    let mut walk = open_locations(bytes, encoding, split, base);
    let all = std::iter::from_fn(|| walk.next().transpose()).map(|r| r.map(told)).collect();
    assert_eq!(walk.next(), Ok(None));
    all
}

fn location_open(c: &mut Checks) {
    let open = |bytes, version, size, offset, split: bool| {
        let (lists, table) = (location_lists(bytes, Little), DebugAddr::default());
        let (offset, encoding, base) =
            (LocationListsOffset(offset), encoding(version, size), DebugAddrBase(0));
        let walk = match split {
            true => lists.locations_dwo(offset, encoding, 0, &table, base),
            false => lists.locations(offset, encoding, 0, &table, base),
        };
        walk.and_then(|mut walk| walk.next())
    };
    for (version, split) in [(2, false), (4, true), (5, false), (6, true)] {
        c.same(open(&[], version, 4, 0, split), Ok(None));
        c.same(open(&[], version, 4, 1, split), Err(EOF));
        c.same(open(&[0], version, 1, 1, split), Ok(None));
        c.same(open(&[], version, 8, u64::MAX, split), Err(EOF));
        c.same(open(&[0; 6], version, 3, 6, split), Ok(None));
        c.same(open(&[], version, 3, 1, split), Err(EOF));
        c.same(open(&[], version, 0, u64::MAX, split), Err(Error::UnsupportedAddressSize(0)));
    }
    let lists = location_lists(&[0], Little);
    c.same(lists.raw_locations(LocationListsOffset(2), encoding(5, 4)).map(|_| ()), Err(EOF));
    c.same(lists.raw_locations_dwo(LocationListsOffset(2), encoding(4, 4)).map(|_| ()), Err(EOF));
    let raw = lists.raw_locations_dwo(LocationListsOffset(1), encoding(4, 4));
    c.same(raw.map(|raw| (raw.place(), raw.entries())), Ok((1, 0)));
    let walk = open_locations(&[0], encoding(5, 4), false, 0);
    c.same((walk.place(), walk.entries()), (0, 0));
}

fn location_next(c: &mut Checks) {
    let (five, four) = (encoding(5, 4), encoding(4, 4));
    let x = &[0x50][..];
    c.same(locations(&[5, 1, 0x50, 0], five, false, 0), vec![Ok((at(0, u64::MAX), x, 2))]);
    let gnu = [3, 0, 8, 0, 0, 0, 1, 0, 0x50, 0];
    c.same(locations(&gnu, four, true, 0), vec![Ok((at(0x10, 0x18), x, 8))]);
    c.same(locations(&[4, 0, 1, 1, 0, 0x50, 0], four, true, 0), vec![Ok((at(0, 1), x, 5))]);
    c.same(locations(&[3, 0, 8, 1, 0x50, 0], five, true, 0), vec![Ok((at(0x10, 0x18), x, 4))]);
    c.same(
        locations(&[3, 2, 8, 0, 3, 0, 8, 1, 0x50, 0], five, false, 0),
        vec![Err(EOF), Ok((at(0x10, 0x18), x, 8))],
    );
    c.same(locations(&[2, 0, 1, 1, 0x50, 0], five, false, 0), vec![Ok((at(0x10, 0x20), x, 4))]);
    c.same(
        locations(&[1, 1, 4, 1, 2, 1, 0x50, 0], five, false, 0),
        vec![Ok((at(0x21, 0x22), x, 6))],
    );
    c.same(
        locations(&[6, 0, 1, 0, 0, 4, 1, 2, 1, 0x50, 0], five, false, 0),
        vec![Ok((at(0x101, 0x102), x, 9))],
    );
    c.same(locations(&[7, 1, 2, 1, 0x50, 0], encoding(5, 1), false, 0), vec![Ok((at(1, 2), x, 4))]);
    c.same(locations(&[8, 1, 2, 1, 0x50, 0], encoding(5, 1), false, 0), vec![Ok((at(1, 3), x, 4))]);
    let bare = [0xff, 0x20, 1, 3, 2, 0, 0x50, 0x51, 0, 0, 7];
    let two = &[0x50, 0x51][..];
    c.same(locations(&bare, encoding(4, 1), false, 0), vec![Ok((at(0x21, 0x23), two, 6))]);
    c.same(locations(&[4, 0, 1, 0, 0], five, false, 0), vec![Ok((at(0, 1), &[], 4))]);
    c.same(locations(&[4, 0, 1, 2, 0x50], five, false, 0), vec![Err(EOF)]);
    c.same(locations(&join(&[&[5], &NINE, &[1]]), five, false, 0), vec![Err(EOF)]);
    c.same(
        locations(&join(&[&[5], &NINE, &[2]]), five, false, 0),
        vec![Err(Error::BadUnsignedLeb128)],
    );
    c.same(locations(&[9, 0], five, false, 0), vec![Err(Error::UnknownLocListsEntry(9))]);
    c.same(locations(&[0xff], four, true, 0), vec![Err(Error::UnknownLocListsEntry(0xff))]);
    let too_far = join(&[&[3], &INDEX_2_61, &[0, 0]]);
    c.same(locations(&too_far, encoding(5, 8), false, 0), vec![Err(Error::UnsupportedOffset)]);
    c.same(locations(&[], five, false, 0), vec![]);
    let (three, old_three) = (encoding(5, 3), encoding(4, 3));
    c.same(
        locations(&[7, 1, 2, 3, 4, 5, 6, 1, 0x50, 0], three, false, 0),
        vec![Ok((at(0x03_0201, 0x06_0504), x, 8))],
    );
    c.same(
        locations(&[8, 0xf0, 0xff, 0xff, 0x0f, 1, 0x50, 0], three, false, 0),
        vec![Ok((at(0xff_fff0, 0xff_ffff), x, 6))],
    );
    c.same(locations(&[8, 0xf0, 0xff, 0xff, 0x10, 1, 0x50, 0], three, false, 0), vec![]);
    c.same(
        locations(&[4, 0, 1, 1, 0x50, 0], three, false, 0xff_fffd),
        vec![Ok((at(0xff_fffd, 0xff_fffe), x, 4))],
    );
    c.same(locations(&[4, 0, 1, 1, 0x50, 0], three, false, 0xff_fffe), vec![]);
    c.same(locations(&[5, 1, 0x50, 0], three, false, 0), vec![Ok((at(0, u64::MAX), x, 2))]);
    let bare = [0xff, 0xff, 0xff, 0x10, 0x20, 0x30, 1, 0, 0, 3, 0, 0, 1, 0, 0x50, 0, 0, 0, 0, 0, 0];
    c.same(locations(&bare, old_three, false, 0), vec![Ok((at(0x30_2011, 0x30_2013), x, 14))]);
    c.same(locations(&gnu, old_three, true, 0), vec![Ok((at(0x10, 0x18), x, 8))]);
    c.same(
        locations(&[6, 0x10, 0x20, 0x30, 4, 1, 2, 1, 0, 0x50, 0], old_three, true, 0),
        vec![Ok((at(0x30_2011, 0x30_2012), x, 9))],
    );
    c.same(
        locations(&[2, 0, 2, 0, 2, 0, 1, 1, 0x50, 0], three, false, 0),
        vec![Err(EOF), Ok((at(0x10, 0x20), x, 8))],
    );
    c.same(locations(&[7, 0x10, 0], three, false, 0), vec![Err(EOF)]);
    let too_far = join(&[&[3], &PAST_THIRD, &[0, 0]]);
    c.same(locations(&too_far, three, false, 0), vec![Err(Error::UnsupportedOffset)]);
    locations_counted(c);
}

/// Entries that count, and those that don't.
fn locations_counted(c: &mut Checks) {
    let counted = |bytes: &[u8], encoding, split| {
        let mut walk = open_locations(bytes, encoding, split, 0);
        steps(|| {
            let next = walk.next().map(|found| found.map(|location| location.range));
            (next, walk.place(), walk.entries())
        })
    };
    let (five, four, end) = (encoding(5, 4), encoding(4, 4), Ok(None));
    let is = |begin, end| Ok(Some(at(begin, end)));
    for (encoding, split) in [(five, false), (five, true), (four, true)] {
        c.same(counted(&[], encoding, split), vec![(end, 0, 0), (end, 0, 0)]);
        c.same(counted(&[0], encoding, split), vec![(end, 1, 1), (end, 1, 1)]);
        let unknown = Err(Error::UnknownLocListsEntry(9));
        c.same(counted(&[9], encoding, split), vec![(unknown, 1, 0), (end, 1, 0), (end, 1, 0)]);
    }
    let marked = [7, 0x10, 0, 0, 0, 0x20, 0, 0, 0, 1, 0x50, 0];
    let whole = vec![(is(0x10, 0x20), 11, 1), (end, 12, 2), (end, 12, 2)];
    c.same(counted(&marked, five, false), whole);
    let cut = vec![(is(0x10, 0x20), 11, 1), (end, 11, 1), (end, 11, 1)];
    c.same(counted(&marked[..11], five, false), cut);
    c.same(
        counted(&[6, 0, 0x10, 0, 0, 4, 1, 2, 0, 4, 3, 3, 0, 4, 5, 6, 0, 0, 0xff], five, false),
        vec![(is(0x1001, 0x1002), 9, 2), (is(0x1005, 0x1006), 17, 4), (end, 19, 5), (end, 19, 5)],
    );
    c.same(
        counted(SPLIT_BASE_AND_PAIRS, four, true),
        vec![(is(0x1001, 0x1002), 10, 2), (is(0x1005, 0x1006), 20, 4), (end, 22, 5), (end, 22, 5)],
    );
    c.same(
        counted(&[2, 0, 2, 0, 3, 0, 8, 0, 0], five, false),
        vec![(Err(EOF), 4, 1), (is(0x10, 0x18), 8, 2), (end, 9, 3), (end, 9, 3)],
    );
    c.same(
        counted(&[3, 2, 8, 0, 0, 0, 0, 0, 3, 0, 8, 0, 0, 0, 1, 0, 0x50, 0], four, true),
        vec![(Err(EOF), 8, 1), (is(0x10, 0x18), 17, 2), (end, 18, 3), (end, 18, 3)],
    );
    c.same(
        counted(&[8, 0x10, 0, 0, 0, 1, 0, 5, 2, 0x50], five, false),
        vec![(is(0x10, 0x11), 7, 1), (Err(EOF), 10, 1), (end, 10, 1), (end, 10, 1)],
    );
    let bare = [0xff, 0x20, 3, 3, 0, 0, 1, 3, 2, 0, 0x50, 0x51, 0, 0, 7];
    c.same(
        counted(&bare, encoding(4, 1), false),
        vec![(is(0x21, 0x23), 12, 3), (end, 15, 4), (end, 15, 4)],
    );
}

/// A base, three offset pairs of which the second is empty, and the end mark, of a split list of
/// DWARF 4.
const SPLIT_BASE_AND_PAIRS: &[u8] =
    &[6, 0, 0x10, 0, 0, 4, 1, 2, 0, 0, 4, 3, 3, 0, 0, 4, 5, 6, 0, 0, 0, 0xff];

/// One entry of each kind, size 1, and the end mark.
const LOCATION_KINDS: &[u8] = &[
    1, 9, 2, 8, 7, 0, 3, 6, 5, 1, 0x50, 4, 4, 5, 0, 5, 2, 0x51, 0x52, 6, 0x33, 7, 2, 3, 0, 8, 1, 2,
    0, 0, 9,
];

fn raw_location(raw: RawLocListEntry<'_>) -> Raw<'_> {
    use RawLocListEntry::*;
    match raw {
        AddressOrOffsetPair { begin, end, data } => (0, begin, end, data.bytes(), data.offset()),
        BaseAddressx { addr } => (1, addr.0, 0, &[][..], 0),
        StartxEndx { begin, end, data } => (2, begin.0, end.0, data.bytes(), data.offset()),
        StartxLength { begin, length, data } => (3, begin.0, length, data.bytes(), data.offset()),
        OffsetPair { begin, end, data } => (4, begin, end, data.bytes(), data.offset()),
        DefaultLocation { data } => (5, 0, 0, data.bytes(), data.offset()),
        BaseAddress { addr } => (6, addr, 0, &[][..], 0),
        StartEnd { begin, end, data } => (7, begin, end, data.bytes(), data.offset()),
        StartLength { begin, length, data } => (8, begin, length, data.bytes(), data.offset()),
    }
}

fn location_next_raw(c: &mut Checks) {
    let bytes_of = |raw: Result<RawLocListEntry<'static>>| raw.map(raw_location);
    let raw = |bytes, encoding, split| {
        let mut walk = open_locations(bytes, encoding, split, 0);
        let all: Vec<_> =
            std::iter::from_fn(|| walk.next_raw().transpose()).map(bytes_of).collect();
        assert_eq!(walk.next_raw(), Ok(None));
        all
    };
    let none = &[][..];
    let kinds = vec![
        Ok((1, 9, 0, none, 0)),
        Ok((2, 8, 7, none, 6)),
        Ok((3, 6, 5, &[0x50][..], 10)),
        Ok((4, 4, 5, none, 15)),
        Ok((5, 0, 0, &[0x51, 0x52], 17)),
        Ok((6, 0x33, 0, none, 0)),
        Ok((7, 2, 3, none, 25)),
        Ok((8, 1, 2, none, 29)),
    ];
    c.same(raw(LOCATION_KINDS, encoding(5, 1), false), kinds.clone());
    let lists = location_lists(LOCATION_KINDS, Little);
    let mut walk = lists.raw_locations(LocationListsOffset(0), encoding(5, 1)).unwrap();
    c.same(std::iter::from_fn(|| walk.next().transpose()).map(bytes_of).collect::<Vec<_>>(), kinds);
    let mut walk = open_locations(LOCATION_KINDS, encoding(5, 1), false, 0);
    let counted: Vec<(u64, u64)> =
        [2, 6, 11, 15, 19, 21, 25, 29, 31].into_iter().zip(1..).collect();
    let counted = [&counted[..], &[(31, 9)]].concat();
    c.same(counts(|| (walk.next_raw(), walk.place(), walk.entries())), counted.clone());
    let mut walk = lists.raw_locations_dwo(LocationListsOffset(0), encoding(5, 1)).unwrap();
    c.same(counts(|| (walk.next(), walk.place(), walk.entries())), counted);
    let gnu = location_lists(&[3, 1, 2, 0, 0, 0, 0, 0, 0], Little);
    let mut walk = gnu.raw_locations_dwo(LocationListsOffset(0), encoding(4, 1)).unwrap();
    c.same(walk.next().map(|raw| raw.map(Ok).map(bytes_of)), Ok(Some(Ok((3, 1, 2, none, 8)))));
    c.same(walk.next(), Ok(None));
    let bare = &[0xff, 0x20, 3, 5, 1, 0, 0x50, 0, 0, 1];
    let plain = location_lists(bare, Little);
    let mut walk = plain.raw_locations(LocationListsOffset(2), encoding(4, 1)).unwrap();
    c.same(walk.next().map(|raw| raw.map(Ok).map(bytes_of)), Ok(Some(Ok((0, 3, 5, &[0x50], 6)))));
    c.same(
        raw(bare, encoding(4, 1), false),
        vec![Ok((6, 0x20, 0, none, 0)), Ok((0, 3, 5, &[0x50], 6))],
    );
    c.same(raw(&[3, 5, 1], encoding(4, 1), false), vec![Err(EOF)]);
    let three = &[6, 1, 2, 3, 7, 1, 2, 3, 4, 5, 6, 0, 8, 1, 2, 3, 9, 0, 8, 1, 2];
    c.same(
        raw(three, encoding(5, 3), false),
        vec![
            Ok((6, 0x03_0201, 0, none, 0)),
            Ok((7, 0x03_0201, 0x06_0504, none, 12)),
            Ok((8, 0x03_0201, 9, none, 18)),
            Err(EOF),
        ],
    );
    c.same(
        raw(&[8, 1, 2, 3, 9, 1, 0, 0x50], encoding(4, 3), true),
        vec![Ok((8, 0x03_0201, 9, &[0x50], 7))],
    );
    c.same(
        raw(&[0xff, 0xff, 0xff, 1, 2, 3, 4, 5, 6, 7, 8, 9, 0, 0, 0, 0], encoding(4, 3), false),
        vec![Ok((6, 0x03_0201, 0, none, 0)), Ok((0, 0x06_0504, 0x09_0807, none, 14)), Err(EOF)],
    );
    c.same(raw(&[9], encoding(5, 1), false), vec![Err(Error::UnknownLocListsEntry(9))]);
    c.same(raw(&[], encoding(5, 1), true), vec![]);
    padded_locations(c);
}

fn padded_locations(c: &mut Checks) {
    let noted = |bytes: &'static [u8], split, encoding| {
        let mut walk = open_locations(bytes, encoding, split, 0);
        let told = |noted: Noted<_>| (raw_location(noted.entry), noted.padded);
        steps(|| (walk.next_raw_noted().map(|e| e.map(told)), walk.place(), walk.entries()))
    };
    let (four, five, none) = (encoding(4, 4), encoding(5, 4), &[][..]);
    // One entry, what is noted of it, and the place behind it; then the list's end.
    for (bytes, split, encoding, entry, padded, place) in [
        (&[5, 0x81, 0, 0x50, 0][..], false, five, (5, 0, 0, &[0x50][..], 3), true, 4),
        (&[5, 1, 0x50, 0], false, five, (5, 0, 0, &[0x50], 2), false, 3),
        (&[3, 0, 0x88, 0, 1, 0x50, 0], false, five, (3, 0, 8, &[0x50], 5), true, 6),
        (&[3, 0, 0x88, 0, 1, 0x50, 0], true, five, (3, 0, 8, &[0x50], 5), true, 6),
        (&[3, 0, 8, 0, 0, 0, 1, 0, 0x50, 0], true, four, (3, 0, 8, &[0x50], 8), false, 9),
        (&[3, 0x80, 0, 8, 0, 0, 0, 1, 0, 0x50, 0], true, four, (3, 0, 8, &[0x50], 9), true, 10),
        (&[3, 0, 0x80, 0, 0, 0, 0, 0], true, four, (3, 0, 0x80, none, 8), false, 8),
        (&[4, 0x81, 0, 0x82, 0, 1, 0, 0x50, 0], true, four, (4, 1, 2, &[0x50], 7), true, 8),
        (&[8, 0x10, 0x81, 0, 0, 0], true, encoding(4, 1), (8, 0x10, 1, none, 6), true, 6),
        (&[0x80, 0, 0x81, 0, 0, 0], false, encoding(4, 2), (0, 0x80, 0x81, none, 6), false, 6),
    ] {
        let (len, marked) = (bytes.len() as u64, u64::from(place < bytes.len() as u64));
        let end = (Ok(None), len, 1 + marked);
        c.same(
            noted(bytes, split, encoding),
            vec![(Ok(Some((entry, padded))), place, 1), end, end],
        );
    }
    // Refused, and at the end, whatever was read before; each entry by its own numbers.
    for (bytes, split, encoding, e) in [
        (&[5, 0x82, 0, 0x50][..], false, five, EOF),
        (&[2, 0x80, 0, 0x80, 0, 1], true, four, EOF),
        (
            &[4, 0x80, 0, 0x80, 0x80, 0x80, 0x80, 0x80, 0x80, 0x80, 0x80, 0x80, 2],
            false,
            five,
            Error::BadUnsignedLeb128,
        ),
        (&[9, 0x80, 0], false, five, Error::UnknownLocListsEntry(9)),
    ] {
        let (len, end) = (bytes.len() as u64, (Ok(None), bytes.len() as u64, 0));
        c.same(noted(bytes, split, encoding), vec![(Err(e), len, 0), end, end]);
    }
    let several =
        &[5, 0x80, 0, 5, 0, 1, 0x80, 0, 6, 0x80, 8, 0x10, 0x81, 0, 0, 4, 0, 1, 0x80, 0, 9, 0x80, 0];
    let is = |entry, padded| Ok(Some((entry, padded)));
    c.same(
        noted(several, false, encoding(5, 1)),
        vec![
            (is((5, 0, 0, none, 3), true), 3, 1),
            (is((5, 0, 0, none, 5), false), 5, 2),
            (is((1, 0, 0, none, 0), true), 8, 3),
            (is((6, 0x80, 0, none, 0), false), 10, 4),
            (is((8, 0x10, 1, none, 15), true), 15, 5),
            (is((4, 0, 1, none, 20), true), 20, 6),
            (Err(Error::UnknownLocListsEntry(9)), 23, 6),
            (Ok(None), 23, 6),
            (Ok(None), 23, 6),
        ],
    );
    c.same(noted(&[], true, four), vec![(Ok(None), 0, 0); 2]);
    for version in [2, 4, 5, 6] {
        entries_padded(c, true, false, version);
        entries_padded(c, true, true, version);
    }
}

fn location_convert_raw(c: &mut Checks) {
    use RawLocListEntry::*;
    let mut walk = open_locations(&[4, 1, 2, 1, 0x50, 0], encoding(5, 4), false, 0x100);
    let (index, data) = (DebugAddrIndex, Expression::new(&[0x77, 0x78]));
    let found = |begin, end| Ok(Some(LocationListEntry { range: at(begin, end), data }));
    c.same(walk.convert_raw(OffsetPair { begin: 1, end: 2, data }), found(0x101, 0x102));
    c.same(walk.convert_raw(OffsetPair { begin: 2, end: 1, data }), Ok(None));
    c.same(walk.convert_raw(AddressOrOffsetPair { begin: 3, end: 4, data }), found(0x103, 0x104));
    c.same(walk.convert_raw(BaseAddress { addr: 0x200 }), Ok(None));
    c.same(walk.convert_raw(OffsetPair { begin: 1, end: 2, data }), found(0x201, 0x202));
    c.same(walk.convert_raw(BaseAddressx { addr: index(1) }), Ok(None));
    c.same(walk.convert_raw(BaseAddressx { addr: index(7) }), Err(EOF));
    c.same(
        walk.convert_raw(StartxEndx { begin: index(0), end: index(1), data }),
        found(0x10, 0x20),
    );
    c.same(walk.convert_raw(StartxEndx { begin: index(0), end: index(2), data }), Err(EOF));
    c.same(walk.convert_raw(StartxLength { begin: index(1), length: 5, data }), found(0x20, 0x25));
    c.same(
        walk.convert_raw(StartxLength { begin: index(u64::MAX), length: 5, data }),
        Err(Error::UnsupportedOffset),
    );
    c.same(walk.convert_raw(DefaultLocation { data }), found(0, u64::MAX));
    c.same(walk.convert_raw(StartEnd { begin: 5, end: 7, data }), found(5, 7));
    c.same(walk.convert_raw(StartLength { begin: 5, length: 7, data }), found(5, 12));
    // Place and count have not moved, and the base is the second address.
    c.same((walk.place(), walk.entries()), (0, 0));
    let raw = walk.next_raw().unwrap().unwrap();
    c.same(walk.convert_raw(raw).map(|l| l.map(told)), Ok(Some((at(0x21, 0x22), &[0x50][..], 4))));
    c.same(walk.next(), Ok(None));
    let mut walk = open_locations(SPLIT_BASE_AND_PAIRS, encoding(4, 4), true, 0);
    for (place, entries, converted) in
        [(5, 1, None), (10, 2, Some(at(0x1001, 0x1002))), (15, 3, None)]
    {
        let raw = walk.next_raw().unwrap().unwrap();
        c.same((walk.place(), walk.entries()), (place, entries));
        c.same(walk.convert_raw(raw).map(|l| l.map(|l| l.range)), Ok(converted));
        c.same((walk.place(), walk.entries()), (place, entries));
    }
    let refused = walk.convert_raw(StartxLength { begin: index(2), length: 1, data });
    c.same((refused, walk.place(), walk.entries()), (Err(EOF), 15, 3));
    c.same(walk.next().map(|l| l.map(|l| l.range)), Ok(Some(at(0x1005, 0x1006))));
    c.same((walk.entries(), walk.next(), walk.entries()), (4, Ok(None), 5));
    let pair = OffsetPair { begin: 1, end: 2, data };
    c.same((walk.convert_raw(pair), walk.entries()), (found(0x1001, 0x1002), 5));
    c.same((walk.next_raw(), walk.entries()), (Ok(None), 5));
    let mut walk = open_locations(&[0], encoding(5, 3), false, 0x100);
    let pair = OffsetPair { begin: 0xff_ff00, end: 0xff_ff10, data };
    c.same(walk.convert_raw(pair), found(0, 0x10));
    c.same(walk.convert_raw(BaseAddress { addr: 0xff_fffe }), Ok(None));
    c.same(walk.convert_raw(OffsetPair { begin: 0x10, end: 0x20, data }), Ok(None));
    c.same(walk.convert_raw(BaseAddressx { addr: index(1) }), Ok(None));
    c.same(walk.convert_raw(AddressOrOffsetPair { begin: 1, end: 2, data }), found(0x21, 0x22));
    let (begin, end) = (0xff_fffd, 0xff_ffff);
    c.same(walk.convert_raw(StartEnd { begin, end, data }), found(begin, end));
    c.same(walk.convert_raw(StartEnd { begin: begin + 1, end, data }), Ok(None));
    c.same(walk.convert_raw(StartLength { begin, length: 2, data }), found(begin, end));
    c.same(walk.convert_raw(StartLength { begin, length: 3, data }), Ok(None));
    c.same(
        walk.convert_raw(StartxEndx { begin: index(0), end: index(1), data }),
        found(0x10, 0x20),
    );
    c.same(walk.convert_raw(StartxLength { begin: index(2), length: 1, data }), Err(EOF));
    c.same(walk.convert_raw(DefaultLocation { data }), found(0, u64::MAX));
    c.same(
        walk.convert_raw(StartxLength { begin: index(THIRD + 1), length: 1, data }),
        Err(Error::UnsupportedOffset),
    );
    // Entries with padded numbers come to what they come to without.
    let five: &[u8] = &[
        1, 0x81, 0, 4, 0x81, 0, 0x82, 0x80, 0, 0x81, 0, 0x50, 2, 0x80, 0, 0x81, 0, 0x80, 0, 3,
        0x81, 0, 0x85, 0, 0x80, 0, 5, 0x81, 0, 0x51, 7, 5, 0, 0, 0, 7, 0, 0, 0, 0x80, 0, 8, 5, 0,
        0, 0, 0x87, 0, 0x80, 0, 0,
    ];
    let in_five = vec![
        (at(0x21, 0x22), &[0x50][..], 11),
        (at(0x10, 0x20), &[], 19),
        (at(0x20, 0x25), &[], 26),
        (at(0, u64::MAX), &[0x51], 29),
        (at(5, 7), &[], 41),
        (at(5, 12), &[], 50),
    ];
    let four: &[u8] =
        &[1, 0x81, 0, 3, 0x81, 0, 5, 0, 0, 0, 0, 0, 4, 0x81, 0, 0x82, 0x80, 0, 1, 0, 0x50, 0];
    let in_four = vec![(at(0x20, 0x25), &[][..], 12), (at(0x21, 0x22), &[0x50], 20)];
    for (bytes, version, found) in [(five, 5, in_five), (four, 4, in_four)] {
        let split = version == 4;
        let mut walk = open_locations(bytes, encoding(version, 4), split, 0x100);
        for expected in std::iter::once(None).chain(found.iter().copied().map(Some)) {
            let Noted { entry, padded } = walk.next_raw_noted().unwrap().unwrap();
            let converted = walk.convert_raw(entry).map(|l| l.map(told));
            c.same((padded, converted), (true, Ok(expected)));
        }
        c.same(walk.next_raw_noted(), Ok(None));
        let expected = found.into_iter().map(Ok).collect::<Vec<_>>();
        c.same(locations(bytes, encoding(version, 4), split, 0x100), expected);
    }
}

fn expression(c: &mut Checks) {
    let section = [1, 2, 3, 4];
    let lying = |offset, length| {
        let expression = Expression::in_section(&section, offset, length);
        (expression.bytes(), expression.offset())
    };
    c.same(lying(1, 2), (&[2, 3][..], 1));
    c.same(lying(0, 4), (&section[..], 0));
    c.same(lying(4, 0), (&[][..], 4));
    for (offset, length) in [(1, 4), (5, 0), (u64::MAX, 0), (2, u64::MAX), (u64::MAX, u64::MAX)] {
        c.same(lying(offset, length), (&[][..], 0));
    }
    c.same(Expression::in_section(&[], 0, 0).bytes(), &[][..]);
    let own = Expression::new(&section);
    c.same((own.bytes(), own.offset()), (&section[..], 0));
}

fn location_lookup(c: &mut Checks) {
    let bytes = [8, 0x10, 0, 0, 0, 8, 1, 0x50, 4, 1, 2, 1, 0x51, 9];
    let lookup = |end, size, offset, address| {
        let (lists, table) = (location_lists(&bytes[..end], Little), DebugAddr::new(TABLE, Little));
        let (offset, main) = (LocationListsOffset(offset), DwarfFileType::Main);
        lists
            .lookup(offset, encoding(5, size), main, 0x100, &table, DebugAddrBase(8), address)
            .map(|l| l.map(told))
    };
    c.same(lookup(13, 4, 0, 0x17), Ok(Some((at(0x10, 0x18), &bytes[7..8], 7))));
    c.same(lookup(14, 4, 0, 0x101), Ok(Some((at(0x101, 0x102), &bytes[12..13], 12))));
    c.same(lookup(13, 4, 0, 0x18), Ok(None));
    c.same(lookup(13, 4, 0, u64::MAX), Ok(None));
    c.same(lookup(14, 4, 0, 0x18), Err(Error::UnknownLocListsEntry(9)));
    c.same(lookup(14, 4, u64::MAX, 0), Err(EOF));
    c.same(lookup(0, 4, 0, 0), Ok(None));
    c.same(lookup(0, 4, 1, 0), Err(EOF));
    c.same(lookup(14, 7, u64::MAX, 0), Err(Error::UnsupportedAddressSize(7)));
    let gnu = [3, 0, 8, 0, 0, 0, 1, 0, 0x50, 0];
    let (lists, table) = (location_lists(&gnu, Little), DebugAddr::new(TABLE, Little));
    let (offset, four, base) = (LocationListsOffset(0), encoding(4, 4), DebugAddrBase(8));
    let found = |address| lists.lookup(offset, four, DwarfFileType::Dwo, 0, &table, base, address);
    c.same(found(0x12).map(|l| l.map(told)), Ok(Some((at(0x10, 0x18), &gnu[8..9], 8))));
    c.same(found(0x18), Ok(None));
    let (four, table) = (encoding(4, 3), table_of(3));
    let found = |address| lists.lookup(offset, four, DwarfFileType::Dwo, 0, &table, base, address);
    c.same(found(0x12).map(|l| l.map(told)), Ok(Some((at(0x10, 0x18), &gnu[8..9], 8))));
    c.same(found(0x18), Ok(None));
    let bytes = [8, 1, 2, 3, 8, 1, 0x50, 4, 1, 2, 1, 0x51, 7, 0x10, 0];
    let lookup = |endian, offset, address| {
        let (lists, table) = (location_lists(&bytes, endian), DebugAddr::default());
        let (offset, main) = (LocationListsOffset(offset), DwarfFileType::Main);
        lists
            .lookup(offset, encoding(5, 3), main, 0x100, &table, base, address)
            .map(|l| l.map(told))
    };
    let x = &bytes[6..7];
    c.same(lookup(Little, 0, 0x03_0208), Ok(Some((at(0x03_0201, 0x03_0209), x, 6))));
    c.same(lookup(Big, 0, 0x01_020a), Ok(Some((at(0x01_0203, 0x01_020b), x, 6))));
    c.same(lookup(Little, 0, 0x101), Ok(Some((at(0x101, 0x102), &bytes[11..12], 11))));
    c.same(lookup(Little, 0, 0x03_0209), Err(EOF));
    c.same(lookup(Little, 16, 0), Err(EOF));
    default_locations(c);
    orders_of_entries(c);
}

/// What a lookup comes to: a range, and where its expression of one byte stands.
type Found = Result<Option<(Range, usize)>>;

const NOT_THERE: Found = Ok(None);
const NO_KIND_9: Found = Err(Error::UnknownLocListsEntry(9));

fn own(begin: u64, end: u64, expression: usize) -> Found {
    Ok(Some((at(begin, end), expression)))
}

fn by_default(expression: usize) -> Found {
    own(0, u64::MAX, expression)
}

/// How a list is written: its version, address size and byte order, and whether it is split.
type Setting = (u16, u8, RunTimeEndian, DwarfFileType);

/// A lookup with the scope's table in the list's order.
fn look_up(list: &[u8], setting: Setting, offset: u64, address: u64) -> Found {
    let (version, size, endian, file_type) = setting;
    let table = DebugAddr::new(if endian == Big { BIG_TABLE } else { TABLE }, endian);
    let (lists, offset) = (location_lists(list, endian), LocationListsOffset(offset));
    let (encoding, base) = (encoding(version, size), DebugAddrBase(8));
    let found = lists.lookup(offset, encoding, file_type, 0x100, &table, base, address)?;
    Ok(found.map(|l| {
        let x = l.data.offset();
        assert_eq!(l.data.bytes(), &list[x..=x]);
        (l.range, x)
    }))
}

/// A default location is found where the list has ended without a bounded entry that holds the
/// address.
fn default_locations(c: &mut Checks) {
    use DwarfFileType::{Dwo, Main};
    const MAX: u64 = u64::MAX;
    let mut all = |settings: &[Setting], list: &[u8], expected: &[(u64, Found)]| {
        for (setting, (address, found)) in
            settings.iter().flat_map(|setting| expected.iter().map(move |e| (*setting, *e)))
        {
            let got = look_up(list, setting, 0, address);
            c.same((list, setting, address, got), (list, setting, address, found));
        }
    };
    // From version 5 on split lists are as others.
    let five =
        [(5, 4, Little, Main), (5, 4, Little, Dwo), (6, 4, Little, Main), (6, 4, Little, Dwo)];
    let first = [5, 1, 0x50, 7, 0x10, 0, 0, 0, 0x20, 0, 0, 0, 1, 0x51, 0];
    let (bounded, default) = (own(0x10, 0x20, 13), by_default(2));
    all(&five, &first, &[(0x10, bounded), (0x1f, bounded), (0xf, default), (0x20, default)]);
    all(&five, &first, &[(0, default), (0x1_0000_0010, default)]);
    all(&five, &first, &[(MAX - 1, default), (MAX, NOT_THERE)]);
    let big = [(5, 4, Big, Main), (6, 4, Big, Dwo)];
    all(&big, &first, &[(0x10, default), (0x1000_0000, own(0x1000_0000, 0x2000_0000, 13))]);
    // Refusals behind it, raw and by the table, and not behind the entry found.
    all(&five, &[5, 1, 0x50, 9], &[(0x10, NO_KIND_9), (MAX, NO_KIND_9)]);
    all(&five, &[5, 1, 0x50, 7, 0x10, 0, 0, 0], &[(0x10, Err(EOF))]);
    all(&five, &[5, 2, 0x50], &[(0x10, Err(EOF))]);
    let padded = join(&[&[5, 1, 0x50, 1], &NINE, &[2, 0]]);
    all(&five, &padded, &[(0x10, Err(Error::BadUnsignedLeb128))]);
    let last = [7, 0x10, 0, 0, 0, 0x20, 0, 0, 0, 1, 0x51, 5, 1, 0x50, 9];
    let bounded = own(0x10, 0x20, 10);
    all(&five, &last, &[(0x10, bounded), (0x30, NO_KIND_9), (MAX, NO_KIND_9)]);
    all(&five, &last[..14], &[(0x10, bounded), (0x20, by_default(13)), (MAX, NOT_THERE)]);
    let pair = [5, 1, 0x50, 4, 1, 2, 1, 0x51, 9];
    all(&five, &pair, &[(0x101, own(0x101, 0x102, 7)), (0x102, NO_KIND_9)]);
    all(&five, &[5, 1, 0x50, 2, 0, 2, 1, 0x51, 0], &[(5, Err(EOF)), (MAX, Err(EOF))]);
    all(&big, &[5, 1, 0x50, 2, 0, 2, 1, 0x51, 0], &[(5, Err(EOF))]);
    all(&five, &[5, 1, 0x50, 1, 2, 0], &[(5, Err(EOF))]);
    all(&five, &[5, 1, 0x50, 3, 2, 8, 1, 0x51, 0], &[(5, Err(EOF))]);
    let rows = [5, 1, 0x50, 2, 0, 1, 1, 0x51, 2, 0, 2, 1, 0x52, 0];
    all(&five, &rows, &[(0x10, own(0x10, 0x20, 7)), (0x20, Err(EOF))]);
    // Twice, also with a bounded entry behind; a base address behind it.
    all(&five, &[5, 1, 0x50, 5, 1, 0x52, 0], &[(5, default), (MAX, NOT_THERE)]);
    let twice = [5, 1, 0x50, 5, 1, 0x52, 8, 5, 0, 0, 0, 1, 1, 0x51, 0];
    all(&five, &twice, &[(5, own(5, 6, 13)), (6, default)]);
    let based = [5, 1, 0x50, 1, 1, 4, 1, 2, 1, 0x51, 0];
    all(&five, &based, &[(0x21, own(0x21, 0x22, 9)), (0x101, default)]);
    // An empty entry, and one of removed code, hold nothing.
    let empty = [7, 0x10, 0, 0, 0, 0x10, 0, 0, 0, 1, 0x51, 5, 1, 0x50, 0];
    all(&five, &empty, &[(0x10, by_default(13))]);
    let removed = [8, 0xfe, 0xff, 0xff, 0xff, 1, 1, 0x51, 5, 1, 0x50, 0];
    all(&five, &removed, &[(0xffff_fffe, by_default(10))]);
    // A bounded entry of the same range.
    let eight = [(5, 8, Little, Main), (5, 8, Big, Dwo), (6, 8, Little, Dwo)];
    let whole = join(&[&[5, 1, 0x50, 7], &[0; 8], &[0xff; 8], &[1, 0x51, 0]]);
    let bounded = own(0, MAX, 21);
    all(&eight, &whole, &[(5, bounded), (0, bounded), (MAX - 1, bounded), (MAX, NOT_THERE)]);
    let whole = join(&[&whole[..22], &[9]]);
    all(&eight, &whole, &[(5, bounded), (MAX, NO_KIND_9)]);
    let length = join(&[&[8], &[0; 8], &[0xff; 9], &[1, 1, 0x51, 5, 1, 0x50, 9]]);
    all(&eight, &length, &[(0, own(0, MAX, 20)), (MAX, NO_KIND_9)]);
    let three = [5, 1, 0x50, 7, 0, 0, 0, 0xff, 0xff, 0xff, 1, 0x51, 0];
    all(
        &[(5, 3, Little, Main), (5, 3, Big, Dwo)],
        &three,
        &[(0xff_fffe, own(0, 0xff_ffff, 11)), (0xff_ffff, default)],
    );
    // The section's end, and what is behind an end mark.
    all(&five, &[5, 1, 0x50], &[(7, default), (MAX, NOT_THERE)]);
    all(&five, &[5, 1, 0x50, 0, 9], &[(7, default), (MAX, NOT_THERE)]);
    all(&five, &[], &[(0, NOT_THERE), (MAX, NOT_THERE)]);
    // Split lists before version 5; bare pairs have no default location.
    let four = [(4, 4, Little, Dwo), (3, 4, Little, Dwo), (2, 8, Little, Dwo)];
    let gnu = [5, 1, 0, 0x50, 0];
    all(&four, &gnu, &[(7, by_default(3)), (MAX - 1, by_default(3)), (MAX, NOT_THERE)]);
    all(&[(4, 4, Big, Dwo)], &gnu, &[(7, Err(EOF))]);
    let gnu = [5, 0, 1, 0x50, 7, 0x12, 0x34, 0x56, 0x78, 0, 1, 0x51, 0];
    all(
        &[(3, 2, Big, Dwo), (4, 2, Big, Dwo)],
        &gnu,
        &[(0x1234, own(0x1234, 0x5678, 11)), (0x1233, by_default(3)), (MAX, NOT_THERE)],
    );
    let gnu = [5, 1, 0, 0x50, 3, 1, 8, 0, 0, 0, 1, 0, 0x51, 9];
    all(&four[..2], &gnu, &[(0x27, own(0x20, 0x28, 12)), (0x28, NO_KIND_9)]);
    let bare = [5, 0, 8, 0, 1, 0, 0x50, 0, 0, 0, 0];
    all(&[(4, 2, Little, Main)], &bare, &[(0x107, own(0x105, 0x108, 6)), (0x108, NOT_THERE)]);
    all(&[(4, 2, Little, Dwo)], &bare, &[(0x107, Err(EOF))]);
    // Offsets, and sizes that aren't read.
    for (offset, found) in [
        (3, own(0x10, 0x20, 13)),
        (14, NOT_THERE),
        (15, NOT_THERE),
        (16, Err(EOF)),
        (MAX, Err(EOF)),
    ] {
        c.same((offset, look_up(&first, five[0], offset, 0x10)), (offset, found));
    }
    for size in [0, 5, 6, 7, 9, 255] {
        let refused = Err(Error::UnsupportedAddressSize(size.into()));
        for (list, offset, version) in [(&first[..], 0, 5), (&first, 16, 4), (&[], MAX, 6)] {
            c.same(look_up(list, (version, size, Little, Dwo), offset, 0x10), refused);
        }
    }
    // A walk has it at its place, with its whole range.
    let (x, y) = (&first[2..3], &first[13..14]);
    c.same(
        locations(&first, encoding(5, 4), false, 7),
        vec![Ok((at(0, MAX), x, 2)), Ok((at(0x10, 0x20), y, 13))],
    );
}

/// What an entry comes to.
#[derive(Debug, Clone, Copy)]
enum Comes {
    ToBounded(Range),
    ToDefault,
    ToNothing,
    ToRefusal(Error),
    ToEnd,
}

/// The entries that lists are put together of, with what they come to: the end mark, two that are
/// refused, raw and by a row that the table lacks, a default location, two bounded ones and an empty one.
/// An expression is the entry's last byte.
fn entries_of((version, size, endian, _): Setting) -> [(Vec<u8>, Comes); 7] {
    let size = usize::from(size);
    let address = |address: u64| match endian {
        Big => address.to_be_bytes()[8 - size..].to_vec(),
        Little => address.to_le_bytes()[..size].to_vec(),
    };
    let expression: &[u8] = match (version, endian) {
        (5.., _) => &[1, 0x50],
        (_, Little) => &[1, 0, 0x50],
        (_, Big) => &[0, 1, 0x50],
    };
    let pair = |begin, end| join(&[&[7], &address(begin), &address(end), expression]);
    let ones = u64::MAX >> (64 - 8 * size);
    [
        (vec![0], Comes::ToEnd),
        (vec![9], Comes::ToRefusal(Error::UnknownLocListsEntry(9))),
        (join(&[&[2, 0, 9], expression]), Comes::ToRefusal(EOF)),
        (join(&[&[5], expression]), Comes::ToDefault),
        (pair(0x10, 0x20), Comes::ToBounded(at(0x10, 0x20))),
        (pair(0, ones), Comes::ToBounded(at(0, ones))),
        (pair(0x18, 0x18), Comes::ToNothing),
    ]
}

/// What a lookup comes to by what the entries do, each with the place of its last byte.
fn by_entries(entries: &[(Comes, usize)], address: u64) -> Found {
    let mut kept = NOT_THERE;
    for (comes, expression) in entries {
        match *comes {
            Comes::ToEnd => break,
            Comes::ToRefusal(e) => return Err(e),
            Comes::ToBounded(range) if (range.begin..range.end).contains(&address) => {
                return Ok(Some((range, *expression)));
            }
            Comes::ToDefault if kept == NOT_THERE && address < u64::MAX => {
                kept = by_default(*expression);
            }
            Comes::ToBounded(_) | Comes::ToDefault | Comes::ToNothing => {}
        }
    }
    kept
}

/// All lists of up to three of these entries, with addresses at the bounds of each.
fn orders_of_entries(c: &mut Checks) {
    let sizes = [1, 2, 3, 4, 8].into_iter().flat_map(|size| [(size, Little), (size, Big)]);
    for ((size, endian), version) in sizes.flat_map(|s| (3..=6).map(move |version| (s, version))) {
        for file_type in [DwarfFileType::Main, DwarfFileType::Dwo] {
            if version < 5 && file_type == DwarfFileType::Main {
                continue;
            }
            let setting = (version, size, endian, file_type);
            let (choices, ones) = (entries_of(setting), u64::MAX >> (64 - 8 * size));
            let addresses = [0, 0xf, 0x10, 0x1f, 0x20, ones - 1, ones, u64::MAX - 1, u64::MAX];
            let mut wrong = Vec::new();
            for (n, number) in (0..=3).flat_map(|n| (0..7usize.pow(n)).map(move |list| (n, list))) {
                let (mut list, mut comes) = (Vec::new(), Vec::new());
                for digit in 0..n {
                    let (entry, to) = &choices[number / 7usize.pow(digit) % 7];
                    list.extend(entry);
                    comes.push((*to, list.len() - 1));
                }
                for address in addresses {
                    let got = look_up(&list, setting, 0, address);
                    if got != by_entries(&comes, address) {
                        wrong.push((list.clone(), address, got));
                    }
                }
            }
            c.same((setting, wrong), (setting, vec![]));
        }
    }
}

// Lookups of several addresses

/// The answers of several addresses, and how many entries were read.
fn several<T: Clone>(found: &[Result<Option<T>>], entries: u64) -> Result<Lookups<T>> {
    Ok(Lookups { found: found.to_vec(), entries })
}

/// What is refused before a list is opened, and what opening refuses. A call is given an address size, an
/// offset and the addresses. The list is one of size 8 whose first entry holds every address but 2^64 - 1.
fn asking<T: Copy + PartialEq + Debug>(
    c: &mut Checks,
    len: u64,
    call: impl Fn(u8, u64, &[u64]) -> Result<Lookups<T>>,
) {
    let rows = |n: u64| -> [Vec<u64>; 3] {
        [vec![5; n as usize], (5..5 + n).collect(), (u64::MAX - n + 1..=u64::MAX).collect()]
    };
    let (read, past) = ([(8, 0), (8, len)], [(8, len + 1), (8, u64::MAX), (5, 0), (5, u64::MAX)]);
    for (size, offset) in read.into_iter().chain(past) {
        let ask = |addresses: &[u64]| call(size, offset, addresses);
        // Without addresses nothing is opened.
        c.same(ask(&[]), several(&[], 0));
        for addresses in [1, 2, 63, 64].into_iter().flat_map(rows) {
            let each = match (size, offset) {
                (5, _) => Err(Error::UnsupportedAddressSize(5)),
                (_, offset) if offset > len => Err(EOF),
                (_, offset) if offset == len => Ok(None),
                _ => continue,
            };
            c.same(ask(&addresses), several(&vec![each; addresses.len()], 0));
        }
        // 20 before 21, and both before opening.
        for mut addresses in [65, 66, 130].into_iter().flat_map(rows) {
            c.same(ask(&addresses), Err(Error::TooManyAddresses));
            addresses[0] = u64::MAX;
            c.same(ask(&addresses), Err(Error::TooManyAddresses));
            addresses.reverse();
            c.same(ask(&addresses), Err(Error::TooManyAddresses));
        }
        for n in 2..=64 {
            let mut wrong = Vec::new();
            for (i, addresses) in (1..n).flat_map(|i| rows(n as u64).map(|row| (i, row))) {
                let (mut above, mut below) = (addresses.clone(), addresses);
                (above[i - 1], below[i]) = (above[i].saturating_add(1), below[i - 1] - 1);
                for row in [above, below] {
                    if !row.is_sorted() && ask(&row) != Err(Error::DescendingAddresses) {
                        wrong.push(row);
                    }
                }
            }
            c.same((size, offset, n, wrong), (size, offset, n, vec![]));
        }
    }
    // Up to 64 are answered.
    let first = call(8, 0, &[5]).expect("an answer").found[0];
    c.same(matches!(first, Ok(Some(_))), true);
    for n in 1..=64 {
        let [equal, ascending, last] = rows(n);
        c.same(call(8, 0, &equal), several(&vec![first; n as usize], 1));
        c.same(call(8, 0, &ascending), several(&vec![first; n as usize], 1));
        let mut found = vec![first; n as usize];
        found[n as usize - 1] = Ok(None);
        c.same(call(8, 0, &last).map(|several| several.found), Ok(found));
    }
}

fn range_lookups(c: &mut Checks) {
    let look = |bytes: &[u8], (version, size), offset, addresses: &[u64]| {
        let (lists, table) = (range_lists(bytes, Little), table_of(size));
        let (offset, encoding) = (RangeListsOffset(offset), encoding(version, size));
        lists.lookups(offset, encoding, 0x40, &table, DebugAddrBase(8), addresses)
    };
    let is = |begin, end| Ok(Some(at(begin, end)));
    let (not_there, no_kind_8, five) = (Ok(None), Err(Error::UnknownRangeListsEntry(8)), (5, 4));
    let list = [7, 0x10, 0, 0, 0, 0x10, 7, 0x30, 0, 0, 0, 0x10, 8];
    let (first, second) = (is(0x10, 0x20), is(0x30, 0x40));
    c.same(look(&list, five, 0, &[]), several(&[], 0));
    c.same(look(&list, five, 0, &[0x10]), several(&[first], 1));
    c.same(look(&list, five, 0, &[0x10, 0x10, 0x1f]), several(&[first; 3], 1));
    c.same(look(&list, five, 0, &[0x10, 0x35]), several(&[first, second], 2));
    c.same(look(&list, five, 0, &[0x10, 0x20, 0x35]), several(&[first, no_kind_8, second], 2));
    c.same(look(&list, five, 0, &[0x20]), several(&[no_kind_8], 2));
    c.same(look(&list, five, 6, &[0x10, 0x35]), several(&[no_kind_8, second], 1));
    c.same(look(&list, five, 0, &[0x35, 0x10]), Err(Error::DescendingAddresses));
    c.same(look(&list, five, 0, &[1; 64]), several(&[no_kind_8; 64], 2));
    c.same(look(&list, five, 0, &[1; 65]), Err(Error::TooManyAddresses));
    let descending: Vec<u64> = (0..65).rev().collect();
    c.same(look(&list, five, 0, &descending), Err(Error::TooManyAddresses));
    // What ends a list, and whether it counts.
    c.same(look(&list[..12], five, 0, &[0x50]), several(&[not_there], 2));
    c.same(look(&join(&[&list[..12], &[0, 8]]), five, 0, &[0x50]), several(&[not_there], 3));
    c.same(look(&[0], five, 0, &[5]), several(&[not_there], 1));
    c.same(look(&[0], five, 1, &[5]), several(&[not_there], 0));
    c.same(look(&[0], five, 2, &[1, 2]), several(&[Err(EOF); 2], 0));
    c.same(look(&[0], (5, 5), 0, &[1]), several(&[Err(Error::UnsupportedAddressSize(5))], 0));
    c.same(look(&[0], (5, 5), 0, &[]), several(&[], 0));
    c.same(look(&[], five, 0, &[0, u64::MAX]), several(&[not_there; 2], 0));
    c.same(look(&list[..8], five, 0, &[0x10, 0x30]), several(&[first, Err(EOF)], 1));
    // The first of several ranges that hold an address.
    let nested =
        [7, 0x14, 0, 0, 0, 4, 7, 0x10, 0, 0, 0, 0x10, 7, 0, 0, 0, 0, 0x40, 7, 0, 0, 0, 0, 0x50, 8];
    let (inner, around, all) = (is(0x14, 0x18), is(0x10, 0x20), is(0, 0x40));
    c.same(
        look(&nested, five, 0, &[0, 0x10, 0x13, 0x14, 0x17, 0x18, 0x20]),
        several(&[all, around, around, inner, inner, around, all], 3),
    );
    c.same(look(&nested, five, 0, &[0x13, 0x14, 0x18]), several(&[around, inner, around], 2));
    // A failed lookup in the address table, whose entry is read; base addresses.
    let failed = [3, 0, 8, 2, 0, 2, 3, 1, 8, 0];
    let by_table = [Err(EOF), is(0x10, 0x18), Err(EOF)];
    c.same(look(&failed, five, 0, &[0xf, 0x10, 0x20]), several(&by_table, 2));
    c.same(look(&failed, (5, 3), 6, &[0x10, 0x27]), several(&[not_there, is(0x20, 0x28)], 2));
    let (pair, based) = (is(0x41, 0x42), is(0x1001, 0x1002));
    let bases = [4, 1, 2, 5, 0, 0x10, 0, 0, 4, 3, 3, 4, 1, 2, 0];
    c.same(look(&bases, five, 0, &[0x41, 0x1001]), several(&[pair, based], 4));
    c.same(look(&bases, five, 0, &[0x41, 0x1002]), several(&[pair, not_there], 5));
    // Bare pairs.
    let bare = [1, 0, 3, 0, 0xff, 0xff, 0, 0x20, 1, 0, 3, 0, 0, 0, 0, 0, 1];
    let (pair, based) = (is(0x41, 0x43), is(0x2001, 0x2003));
    for four in [(3, 2), (4, 2)] {
        c.same(look(&bare, four, 0, &[0x41, 0x42, 0x2001]), several(&[pair, pair, based], 3));
        c.same(look(&bare, four, 0, &[0x42, 0x43]), several(&[pair, not_there], 4));
        c.same(look(&bare, four, 16, &[0x42, 0x43]), several(&[Err(EOF); 2], 0));
    }
    let whole = join(&[&[7], &[0; 8], &[0xff; 9], &[1, 0]]);
    for version in [5, 6] {
        let call = |size, offset, row: &[u64]| look(&whole, (version, size), offset, row);
        asking(c, whole.len() as u64, call);
    }
    let bare = join(&[&[0; 8], &[0xff; 8]]);
    let (lists, none) = (range_lists(&bare, Big), DebugAddr::default());
    asking(c, 16, |size, offset, row| {
        let (offset, base) = (RangeListsOffset(offset), DebugAddrBase(0));
        lists.lookups(offset, encoding(4, size), 0, &none, base, row)
    });
    any_lists(c, 50_000, |any| {
        let (list, at) = any.list(&RANGE_OPERANDS, any.encoding.version >= 5);
        let table = any.table();
        any.compare_ranges(range_lists(&list, any.endian), &table, at);
    });
}

fn location_lookups(c: &mut Checks) {
    use DwarfFileType::{Dwo, Main};
    let look = look_up_several;
    let (five, default) = ((5, 4, Little, Main), by_default(2));
    let list = [5, 1, 0x50, 7, 0x10, 0, 0, 0, 0x20, 0, 0, 0, 1, 0x51, 0];
    let (bounded, four) = (own(0x10, 0x20, 13), [0, 0x10, 0x20, u64::MAX]);
    for setting in [five, (6, 4, Little, Dwo)] {
        let found = [default, bounded, default, NOT_THERE];
        c.same(look(&list, setting, 0, &four), several(&found, 3));
        c.same(look(&list[..14], setting, 0, &four), several(&found, 2));
        c.same(look(&list, setting, 0, &[0x10, 0x10, 0x1f]), several(&[bounded; 3], 2));
        c.same(look(&list, setting, 3, &four[..2]), several(&[NOT_THERE, bounded], 2));
        c.same(look(&list, setting, 14, &four), several(&[NOT_THERE; 4], 1));
        c.same(look(&list, setting, 16, &four), several(&[Err(EOF); 4], 0));
        c.same(look(&list, setting, 16, &[]), several(&[], 0));
        let refused = join(&[&list[..14], &[9]]);
        c.same(look(&refused, setting, 0, &four[..2]), several(&[NO_KIND_9, bounded], 2));
        c.same(look(&refused, setting, 0, &[0x10]), several(&[bounded], 2));
    }
    let twice = [5, 1, 0x50, 5, 1, 0x52, 0, 9];
    c.same(look(&twice, five, 0, &[5, 5, u64::MAX]), several(&[default, default, NOT_THERE], 3));
    let no_row = [5, 1, 0x50, 2, 0, 2, 1, 0x51, 0];
    c.same(look(&no_row, five, 0, &[5, u64::MAX]), several(&[Err(EOF); 2], 2));
    let nested = [8, 0x14, 0, 0, 0, 4, 1, 0x50, 8, 0x10, 0, 0, 0, 0x10, 1, 0x51, 9];
    let (inner, around) = (own(0x14, 0x18, 7), own(0x10, 0x20, 15));
    c.same(
        look(&nested, five, 0, &[0x13, 0x14, 0x17, 0x18, 0x20]),
        several(&[around, inner, inner, around, NO_KIND_9], 2),
    );
    // Split lists before version 5, and bare pairs.
    let gnu = [5, 1, 0, 0x50, 3, 0, 8, 0, 0, 0, 1, 0, 0x51, 0];
    let found = [by_default(3), own(0x10, 0x18, 12), NOT_THERE];
    c.same(look(&gnu, (4, 4, Little, Dwo), 0, &[0xf, 0x10, u64::MAX]), several(&found, 3));
    c.same(look(&gnu, (3, 4, Little, Dwo), 0, &[0x10, 0x17]), several(&[found[1]; 2], 2));
    let bare = [5, 0, 8, 0, 1, 0, 0x50, 0, 0, 0, 0];
    let found = [own(0x105, 0x108, 6), NOT_THERE];
    c.same(look(&bare, (4, 2, Little, Main), 0, &[0x107, 0x108]), several(&found, 2));
    c.same(look(&bare, (4, 2, Little, Dwo), 0, &[0x107, 0x108]), several(&[Err(EOF); 2], 0));

    let (bounds, x) = (join(&[&[0; 8], &[0xff; 8]]), [1, 0, 0x50]);
    let newer = join(&[&[7], &bounds, &x[..1], &x[2..], &[0]]);
    let (older, gnu) = (join(&[&bounds, &x]), join(&[&[7], &bounds, &x, &[0]]));
    let all =
        [(&newer, 5, Main), (&newer, 5, Dwo), (&newer, 6, Main), (&older, 4, Main), (&gnu, 4, Dwo)];
    for (list, version, file_type) in all {
        let (lists, none) = (location_lists(list, Little), DebugAddr::default());
        asking(c, list.len() as u64, |size, offset, row| {
            let (offset, base) = (LocationListsOffset(offset), DebugAddrBase(0));
            lists.lookups(offset, encoding(version, size), file_type, 0, &none, base, row)
        });
    }
    orders_for_several(c);
    any_lists(c, 50_000, |any| {
        for file in [Main, Dwo] {
            let kinds = any.encoding.version >= 5 || file == Dwo;
            let ((list, at), table) = (any.list(&LOCATION_OPERANDS, kinds), any.table());
            any.compare_locations(&list, &table, file, at);
        }
    });
}

/// The same as [`look_up`] for several addresses.
fn look_up_several(
    list: &[u8],
    setting: Setting,
    offset: u64,
    addresses: &[u64],
) -> Result<Lookups<(Range, usize)>> {
    let (version, size, endian, file_type) = setting;
    let table = DebugAddr::new(if endian == Big { BIG_TABLE } else { TABLE }, endian);
    let (lists, offset) = (location_lists(list, endian), LocationListsOffset(offset));
    let (encoding, base) = (encoding(version, size), DebugAddrBase(8));
    let Lookups { found, entries } =
        lists.lookups(offset, encoding, file_type, 0x100, &table, base, addresses)?;
    let told = |l: LocationListEntry| {
        let x = l.data.offset();
        assert_eq!(l.data.bytes(), &list[x..=x]);
        (l.range, x)
    };
    Ok(Lookups { found: found.into_iter().map(|f| Ok(f?.map(told))).collect(), entries })
}

/// All lists of up to three entries, with addresses at the bounds of each, all at once and each two.
fn orders_for_several(c: &mut Checks) {
    let sizes = [1, 2, 3, 4, 8].into_iter().flat_map(|size| [(size, Little), (size, Big)]);
    let files = [(3, DwarfFileType::Dwo), (5, DwarfFileType::Main)];
    for ((size, endian), (version, file)) in sizes.flat_map(|s| files.map(|file| (s, file))) {
        let setting = (version, size, endian, file);
        let (choices, ones) = (entries_of(setting), u64::MAX >> (64 - 8 * size));
        let mut addresses = [0, 0xf, 0x10, 0x1f, 0x20, ones - 1, ones, u64::MAX - 1, u64::MAX];
        addresses.sort();
        let pairs = (0..9).flat_map(|i| (i..9).map(move |j| vec![addresses[i], addresses[j]]));
        let rows: Vec<Vec<u64>> = pairs.chain([addresses.to_vec()]).collect();
        let mut wrong = Vec::new();
        for (n, number) in (0..=3).flat_map(|n| (0..7usize.pow(n)).map(move |list| (n, list))) {
            let (mut list, mut comes) = (Vec::new(), Vec::new());
            for digit in 0..n {
                let (entry, to) = &choices[number / 7usize.pow(digit) % 7];
                list.extend(entry);
                comes.push((*to, list.len() - 1));
            }
            for row in &rows {
                let found: Vec<_> = row.iter().map(|a| by_entries(&comes, *a)).collect();
                let entries = row.iter().map(|a| read_by_entries(&comes, *a)).max();
                let got = look_up_several(&list, setting, 0, row);
                if got != several(&found, entries.unwrap_or(0)) {
                    wrong.push((list.clone(), row.clone(), got));
                }
            }
        }
        c.same((setting, wrong), (setting, vec![]));
    }
}

/// How many entries a lookup reads by what the entries come to. A refusal by the table is of an entry that
/// is read.
fn read_by_entries(entries: &[(Comes, usize)], address: u64) -> u64 {
    let ends = entries.iter().position(|(comes, _)| match *comes {
        Comes::ToEnd | Comes::ToRefusal(_) => true,
        Comes::ToBounded(range) => (range.begin..range.end).contains(&address),
        Comes::ToDefault | Comes::ToNothing => false,
    });
    match ends.map(|i| (i, entries[i].0)) {
        None => entries.len() as u64,
        Some((i, Comes::ToRefusal(Error::UnknownLocListsEntry(_)))) => i as u64,
        Some((i, _)) => i as u64 + 1,
    }
}

/// The range of each entry that a walk reads, none where it is no bounded entry's, and the count then; up
/// to the first refusal or the end.
type Reading = Vec<(Option<Range>, u64)>;

/// The reading of a walk whose next entry comes to a range or to none.
fn reading(mut next: impl FnMut() -> (Result<Option<Option<Range>>>, u64)) -> Reading {
    let mut all = Vec::new();
    loop {
        let (comes, entries) = next();
        all.push((comes.ok().flatten().flatten(), entries));
        if !matches!(comes, Ok(Some(_))) {
            return all;
        }
    }
}

/// How many entries the lookup of an address reads.
fn entries_for(reading: &Reading, address: u64) -> u64 {
    let holds = |range: Range| (range.begin..range.end).contains(&address);
    let found = reading.iter().find(|(range, _)| range.is_some_and(holds));
    found.or(reading.last()).map_or(0, |(_, entries)| *entries)
}

/// An address or a length in a number of bytes.
fn fixed(number: u64, width: usize, endian: RunTimeEndian) -> Vec<u8> {
    match endian {
        Big => number.to_be_bytes()[8 - width..].to_vec(),
        Little => number.to_le_bytes()[..width].to_vec(),
    }
}

/// Lists that are put together in no order; how often an address was found, not there and refused, or a walk
/// had none of the three, 15 or another; and which answers were wrong.
struct AnyLists<'a> {
    byte: &'a mut dyn FnMut() -> u8,
    encoding: Encoding,
    endian: RunTimeEndian,
    met: [usize; 3],
    wrong: Vec<String>,
}

impl AnyLists<'_> {
    /// A number below another.
    fn below(&mut self, bound: u8) -> u64 {
        ((self.byte)() % bound).into()
    }

    /// An address table of twenty rows.
    fn table(&mut self) -> Vec<u8> {
        let (size, endian) = (self.encoding.address_size.into(), self.endian);
        (0..20).flat_map(|_| fixed(self.below(0x60), size, endian)).collect()
    }

    /// Bytes, a list that begins at their end, and what ends it: a mark with bytes behind, a kind that is
    /// none, or the section's end.
    fn list(&mut self, operands: &[&str], kinds: bool) -> (Vec<u8>, usize) {
        let (size, endian) = (usize::from(self.encoding.address_size), self.endian);
        let mut list: Vec<u8> = (0..self.below(3)).map(|n| n as u8).collect();
        let (begin, most) = (list.len(), if self.below(8) == 0 { 100 } else { 9 });
        for _ in 0..self.below(most) {
            let kind = if kinds { 1 + self.below(operands.len() as u8 - 1) as usize } else { 0 };
            let base = !kinds && self.below(8) == 0;
            list.extend(kinds.then_some(kind as u8));
            for (n, operand) in operands[kind].chars().enumerate() {
                let number = self.below(if n == 0 { 24 } else { 48 });
                let is_leb128 = is_leb128(operand, self.encoding.version);
                list.extend(match operand {
                    'a' if base && n == 0 => vec![0xff; size],
                    'a' => fixed(number, size, endian),
                    'x' if base => vec![],
                    'x' if is_leb128 => join(&[&[2], &[7; 2]]),
                    'x' => join(&[&fixed(2, 2, endian), &[7; 2]]),
                    _ if is_leb128 => leb128(number, usize::from(self.below(8) == 0)),
                    _ => fixed(number, 4, endian),
                });
            }
        }
        match self.below(4) {
            0 => list.extend(join(&[&vec![0; if kinds { 1 } else { 2 * size }], &[0xff, 7]])),
            1 => list.push(9),
            _ => {}
        }
        (list, begin)
    }

    /// Addresses at the bounds of entries and others, ascending.
    fn addresses(&mut self, reading: &Reading, n: usize) -> Vec<u64> {
        let ones = u64::MAX >> (64 - 8 * self.encoding.address_size);
        let (far, width) = ([0, ones - 1, ones, u64::MAX - 1, u64::MAX], 1 + (self.byte)() % 0x70);
        let mut all: Vec<u64> = Vec::new();
        for _ in 0..n {
            let (choice, which, less) = (self.below(8), (self.byte)().into(), self.below(2));
            let near = reading.iter().cycle().nth(which).and_then(|(range, _)| *range);
            all.push(match (choice, near) {
                (0, Some(range)) => range.begin.wrapping_sub(less),
                (1, Some(range)) => range.end - less,
                (2, _) if which % 4 == 0 => far[which / 4 % far.len()],
                _ => self.below(width),
            });
        }
        all.sort();
        all
    }

    /// Several addresses have the answers of single lookups, and as many entries are read as by the
    /// longest of these.
    fn compare<T: Clone + PartialEq + Debug>(
        &mut self,
        list: &[u8],
        reading: Reading,
        lookups: impl Fn(&[u64]) -> Result<Lookups<T>>,
        lookup: impl Fn(u64) -> Result<Option<T>>,
    ) {
        for n in [1, 2, self.below(65) as usize, 64] {
            let addresses = self.addresses(&reading, n);
            let found: Vec<_> = addresses.iter().map(|address| lookup(*address)).collect();
            for one in &found {
                let which = one.as_ref().map_or(2, |found| usize::from(found.is_none()));
                self.met[which] += 1;
            }
            let entries = addresses.iter().map(|address| entries_for(&reading, *address)).max();
            let got = lookups(&addresses);
            if got != several(&found, entries.unwrap_or(0)) {
                self.wrong.push(words(&(list, addresses, got)));
            }
        }
    }

    /// The same in a range list.
    fn compare_ranges<K: Kinds>(&mut self, lists: RangeLists<'_, K>, table: &[u8], at: usize) {
        let (encoding, base, from) = (self.encoding, DebugAddrBase(0), self.below(0x30));
        let (table, offset) = (DebugAddr::new(table, self.endian), RangeListsOffset(at as u64));
        let mut walk = lists.ranges(offset, encoding, from, &table, base).expect("an open list");
        let reading = reading(|| {
            let (raw, entries) = (walk.next_raw(), walk.entries());
            (raw.and_then(|raw| raw.map(|raw| walk.convert_raw(raw)).transpose()), entries)
        });
        let list = lists.debug_rnglists().reader().slice();
        self.compare(
            list,
            reading,
            |addresses| lists.lookups(offset, encoding, from, &table, base, addresses),
            |address| lists.lookup(offset, encoding, from, &table, base, address),
        );
    }

    /// The same in a location list.
    fn compare_locations(&mut self, list: &[u8], table: &[u8], file: DwarfFileType, at: usize) {
        let (encoding, base, from) = (self.encoding, DebugAddrBase(0), self.below(0x30));
        let (table, offset) = (DebugAddr::new(table, self.endian), LocationListsOffset(at as u64));
        let lists = location_lists(list, self.endian);
        let walk = match file {
            DwarfFileType::Main => lists.locations(offset, encoding, from, &table, base),
            DwarfFileType::Dwo => lists.locations_dwo(offset, encoding, from, &table, base),
        };
        let mut walk = walk.expect("an open list");
        let reading = reading(|| {
            let (raw, entries) = (walk.next_raw(), walk.entries());
            let bounded = !matches!(raw, Ok(Some(RawLocListEntry::DefaultLocation { .. })));
            let comes = raw.and_then(|raw| raw.map(|raw| walk.convert_raw(raw)).transpose());
            let range = |l: Option<LocationListEntry>| l.filter(|_| bounded).map(|l| l.range);
            (comes.map(|comes| comes.map(range)), entries)
        });
        self.compare(
            list,
            reading,
            |addresses| lists.lookups(offset, encoding, file, from, &table, base, addresses),
            |address| lists.lookup(offset, encoding, file, from, &table, base, address),
        );
    }
}

/// Lists of every version, of all sizes and in both orders, compared by a call. Each answer is met often.
fn any_lists(c: &mut Checks, often: usize, compare: impl Fn(&mut AnyLists)) {
    let (mut byte, mut met) = (byte_source(), [0; 3]);
    let settings = (3..=6).flat_map(|version| [1, 2, 3, 4, 8].map(|size| (version, size)));
    for ((version, size), endian) in settings.flat_map(|s| [Little, Big].map(|endian| (s, endian)))
    {
        let encoding = encoding(version, size);
        let mut lists = AnyLists { byte: &mut byte, encoding, endian, met, wrong: Vec::new() };
        for _ in 0..100 {
            compare(&mut lists);
        }
        met = lists.met;
        c.same((version, size, endian, lists.wrong), (version, size, endian, vec![]));
    }
    c.same(met.map(|met| met > often), [true; 3]);
}

// Marks

const NO_MARK: Error = Error::NoSuchMark;
/// Numbers above 7; some are a mark's when they are cut to fewer bits, or times 8.
const NO_NUMBERS: [u64; 10] =
    [8, 9, 15, 0x100, 0x1_0007, 1 << 32, (1 << 32) + 7, TWO_TO_61, 1 << 63, u64::MAX];
/// Three ranges and the end mark.
const THREE: &[u8] = &[7, 0x10, 0, 0, 0, 1, 7, 0x20, 0, 0, 0, 1, 7, 0x30, 0, 0, 0, 1, 0];

fn three_ranges() -> [Result<Option<Range>>; 3] {
    [at(0x10, 0x11), at(0x20, 0x21), at(0x30, 0x31)].map(|range| Ok(Some(range)))
}

/// A walk, with its marks where it has some, word for word.
fn words(walk: &impl Debug) -> String {
    format!("{walk:?}")
}

/// Which marks are set, in the order of their numbers.
fn set_marks<W: Debug>(walk: &Marked<W>) -> Vec<u64> {
    let told = words(walk);
    let marks = told.split("is_set: ").skip(1).zip(0..);
    marks.filter(|(mark, _)| !mark.starts_with('0')).map(|(_, number)| number).collect()
}

fn marked_ranges(bytes: &[u8], encoding: Encoding, base_address: u64) -> Marked<RngListIter<'_>> {
    Marked::new(open_ranges(bytes, encoding, base_address))
}

/// The next range, and the walk's place and count then.
fn next_range<K: Kinds>(walk: &mut RngListIter<'_, K>) -> Step<Range> {
    (walk.next(), walk.place(), walk.entries())
}

/// The same of a location.
fn next_location<'a>(walk: &mut LocListIter<'a>) -> Step<Told<'a>> {
    (walk.next().map(|found| found.map(told)), walk.place(), walk.entries())
}

/// A call that is refused with 13 and leaves walk and marks as they were.
#[track_caller]
fn no_mark<W: Debug>(
    c: &mut Checks,
    walk: &mut Marked<W>,
    call: impl Fn(&mut Marked<W>, u64) -> Result<()>,
    number: u64,
) {
    let before = words(walk);
    c.same((call(walk, number), words(walk)), (Err(NO_MARK), before));
}

fn mark_set(c: &mut Checks) {
    let mut walk = marked_ranges(THREE, encoding(5, 4), 0);
    c.same(set_marks(&walk), vec![]);
    for number in NO_NUMBERS {
        no_mark(c, &mut walk, Marked::set_mark, number);
    }
    // The walk stays, and each mark has its place.
    for number in 0..8 {
        let before = words(&*walk);
        c.same((walk.set_mark(number), words(&*walk)), (Ok(()), before));
        c.same(set_marks(&walk), (0..=number).collect());
    }
    for number in NO_NUMBERS {
        no_mark(c, &mut walk, Marked::set_mark, number);
    }
    // A mark set again, at another place and at the same one.
    let [first, second, third] = three_ranges();
    let mut again = walk.clone();
    c.same((again.next(), again.set_mark(2), again.set_mark(2)), (first, Ok(()), Ok(())));
    c.same((again.next(), again.set_mark(2), again.next()), (second, Ok(()), third));
    c.same((again.return_to(2), next_range(&mut again)), (Ok(()), (third, 18, 3)));
    c.same((again.return_to(3), next_range(&mut again)), (Ok(()), (first, 6, 1)));
    // A copy has marks of its own.
    c.same((walk.return_to(2), next_range(&mut walk)), (Ok(()), (first, 6, 1)));
}

fn mark_return(c: &mut Checks) {
    let five = encoding(5, 4);
    let [first, second, third] = three_ranges();
    let behind = [(second, 12, 2), (third, 18, 3), (Ok(None), 19, 4)];
    let mut walk = marked_ranges(THREE, five, 0);
    for number in (0..8).chain(NO_NUMBERS) {
        no_mark(c, &mut walk, Marked::return_to, number);
    }
    c.same((next_range(&mut walk), walk.set_mark(0)), ((first, 6, 1), Ok(())));
    c.same([(); 3].map(|_| next_range(&mut walk)), behind);
    c.same((walk.return_to(0), walk.place(), walk.entries()), (Ok(()), 6, 1));
    c.same([(); 3].map(|_| next_range(&mut walk)), behind);
    // Two returns, and a setting of another mark between the calls; no return changes a mark.
    c.same(
        (walk.return_to(0), next_range(&mut walk), walk.set_mark(1)),
        (Ok(()), behind[0], Ok(())),
    );
    for (number, place, entries) in [(0, 6, 1), (0, 6, 1), (1, 12, 2), (0, 6, 1)] {
        c.same((walk.return_to(number), walk.place(), walk.entries()), (Ok(()), place, entries));
        c.same(set_marks(&walk), vec![0, 1]);
    }
    // A mark that was never set.
    no_mark(c, &mut walk, Marked::return_to, 5);
    c.same(next_range(&mut walk), behind[0]);
    // No mark has the number.
    let mut walk = marked_ranges(THREE, five, 0);
    c.same((walk.next(), walk.set_mark(3), walk.next()), (first, Ok(()), second));
    no_mark(c, &mut walk, Marked::set_mark, 8);
    no_mark(c, &mut walk, Marked::return_to, 8);
    no_mark(c, &mut walk, Marked::set_mark, u64::MAX);
    c.same((walk.return_to(3), next_range(&mut walk)), (Ok(()), behind[0]));
    // Each number, from a place of its own.
    let mut walk = marked_ranges(RANGE_KINDS, encoding(5, 1), 0);
    let places = [(0, 0), (2, 1), (5, 2), (8, 3), (11, 4), (13, 5), (16, 6), (19, 7)];
    for number in 0..8 {
        c.same((walk.set_mark(number), walk.next_raw().is_ok()), (Ok(()), true));
    }
    for number in [7, 0, 6, 1, 5, 2, 4, 3] {
        let (place, entries) = places[number as usize];
        c.same((walk.return_to(number), walk.place(), walk.entries()), (Ok(()), place, entries));
    }
    for number in NO_NUMBERS {
        no_mark(c, &mut walk, Marked::return_to, number);
    }
    c.same(walk.next_raw(), Ok(Some(range_kinds()[3])));
    returns_in_ranges(c);
    returns_in_locations(c);
}

fn returns_in_ranges(c: &mut Checks) {
    let five = encoding(5, 4);
    let is = |begin, end| Ok(Some(at(begin, end)));
    // The base address is stored.
    let bases = [5, 0, 0x10, 0, 0, 4, 1, 2, 5, 0, 0x20, 0, 0, 4, 3, 4, 0];
    let mut walk = marked_ranges(&bases, five, 0);
    c.same((next_range(&mut walk), walk.set_mark(7)), ((is(0x1001, 0x1002), 8, 2), Ok(())));
    let other = (is(0x2003, 0x2004), 16, 4);
    c.same((next_range(&mut walk), walk.return_to(7), walk.place()), (other, Ok(()), 8));
    let pair = RawRngListEntry::OffsetPair { begin: 1, end: 2 };
    c.same(walk.convert_raw(pair), is(0x1001, 0x1002));
    c.same(next_range(&mut walk), other);
    // Another one by a conversion between.
    let mut walk = marked_ranges(&[4, 1, 2, 4, 3, 4, 0], five, 0x100);
    let base = RawRngListEntry::BaseAddress { addr: 0x200 };
    c.same((walk.set_mark(1), walk.convert_raw(base)), (Ok(()), Ok(None)));
    c.same((walk.set_mark(2), walk.next()), (Ok(()), is(0x201, 0x202)));
    c.same((walk.return_to(1), walk.next()), (Ok(()), is(0x101, 0x102)));
    c.same((walk.convert_raw(base), walk.next()), (Ok(None), is(0x203, 0x204)));
    c.same((walk.return_to(2), walk.next()), (Ok(()), is(0x201, 0x202)));
    // A failed lookup is met again.
    let mut walk = marked_ranges(&[2, 0, 2, 3, 0, 8, 0], five, 0);
    let behind = [(Err(EOF), 3, 1), (is(0x10, 0x18), 6, 2), (Ok(None), 7, 3)];
    c.same((walk.set_mark(0), [(); 3].map(|_| next_range(&mut walk))), (Ok(()), behind));
    c.same((walk.return_to(0), [(); 3].map(|_| next_range(&mut walk))), (Ok(()), behind));
    // An emptied walk; and one before the entry that empties it.
    let mut walk = marked_ranges(&[7, 0x10, 0, 0, 0, 1, 8, 0], five, 0);
    let unknown = (Err(Error::UnknownRangeListsEntry(8)), 8, 1);
    c.same((walk.next(), walk.set_mark(0)), (is(0x10, 0x11), Ok(())));
    c.same((next_range(&mut walk), walk.set_mark(1)), (unknown, Ok(())));
    c.same((walk.return_to(0), next_range(&mut walk)), (Ok(()), unknown));
    c.same((walk.return_to(1), next_range(&mut walk)), (Ok(()), (Ok(None), 8, 1)));
    // Bare pairs.
    let bare = [0xff, 0xff, 0, 0x20, 1, 0, 3, 0, 5, 0, 6, 0, 0, 0, 0, 0];
    let mut walk = marked_ranges(&bare, encoding(4, 2), 0);
    c.same((next_range(&mut walk), walk.set_mark(6)), ((is(0x2001, 0x2003), 8, 2), Ok(())));
    let behind = [(is(0x2005, 0x2006), 12, 3), (Ok(None), 16, 4)];
    c.same([(); 2].map(|_| next_range(&mut walk)), behind);
    c.same((walk.return_to(6), [(); 2].map(|_| next_range(&mut walk))), (Ok(()), behind));
}

fn returns_in_locations(c: &mut Checks) {
    let (five, four) = (encoding(5, 4), encoding(4, 4));
    let plain = [8, 0x10, 0, 0, 0, 1, 1, 0x50, 8, 0x20, 0, 0, 0, 1, 1, 0x51, 0];
    let mut walk = Marked::new(open_locations(&plain, five, false, 0));
    let first = Ok(Some((at(0x10, 0x11), &[0x50][..], 7)));
    let behind = [(Ok(Some((at(0x20, 0x21), &[0x51][..], 15))), 16, 2), (Ok(None), 17, 3)];
    c.same((next_location(&mut walk), walk.set_mark(0)), ((first, 8, 1), Ok(())));
    c.same([(); 2].map(|_| next_location(&mut walk)), behind);
    c.same((walk.return_to(0), [(); 2].map(|_| next_location(&mut walk))), (Ok(()), behind));
    // A split list, its base and its count; raw entries, and another base between.
    let mut walk = Marked::new(open_locations(SPLIT_BASE_AND_PAIRS, four, true, 0));
    let first = Ok(Some((at(0x1001, 0x1002), &[][..], 10)));
    let behind = [(Ok(Some((at(0x1005, 0x1006), &[][..], 20))), 20, 4), (Ok(None), 22, 5)];
    c.same((next_location(&mut walk), walk.set_mark(7)), ((first, 10, 2), Ok(())));
    c.same([(); 2].map(|_| next_location(&mut walk)), behind);
    c.same((walk.return_to(7), walk.entries()), (Ok(()), 2));
    let data = Expression::in_section(SPLIT_BASE_AND_PAIRS, 15, 0);
    let skipped = RawLocListEntry::OffsetPair { begin: 3, end: 3, data };
    c.same((walk.next_raw(), walk.place()), (Ok(Some(skipped)), 15));
    c.same(walk.convert_raw(RawLocListEntry::BaseAddress { addr: 0x200 }), Ok(None));
    c.same(walk.next().map(|found| found.map(told)), Ok(Some((at(0x205, 0x206), &[][..], 20))));
    c.same((walk.return_to(7), walk.next_raw()), (Ok(()), Ok(Some(skipped))));
    c.same(next_location(&mut walk), behind[0]);
    no_mark(c, &mut walk, Marked::return_to, 6);
    no_mark(c, &mut walk, Marked::set_mark, 8);
    c.same(next_location(&mut walk), behind[1]);
    // Whether a list is split is stored, too. As no split one it has a bare pair whose begin is above
    // its end, of three bytes of expression, and then too few bytes.
    let gnu = [3, 2, 8, 0, 0, 0, 0, 0, 3, 0, 8, 0, 0, 0, 1, 0, 0x50, 0];
    let mut walk = Marked::new(open_locations(&gnu, four, true, 0));
    let found = (Ok(Some((at(0x10, 0x18), &[0x50][..], 16))), 17, 2);
    let behind = [(Err(EOF), 8, 1), found, (Ok(None), 18, 3)];
    c.same((walk.set_mark(4), [(); 3].map(|_| next_location(&mut walk))), (Ok(()), behind));
    *walk = open_locations(&gnu, four, false, 0);
    let cut = (Err(EOF), 18, 1);
    c.same((walk.set_mark(5), next_location(&mut walk)), (Ok(()), cut));
    c.same((walk.return_to(4), [(); 3].map(|_| next_location(&mut walk))), (Ok(()), behind));
    c.same((walk.return_to(5), next_location(&mut walk)), (Ok(()), cut));
}

// The profile

const PADDED: Error = Error::PaddedNumber;
const TOMBSTONE: Error = Error::Tombstone;
const BACKWARD: Error = Error::BackwardRange;

/// The next range in the profile, and the walk's place and count then.
fn next_range_in_profile<K: Kinds>(walk: &mut RngListIter<'_, K>) -> Step<Range> {
    (walk.next_in_profile(), walk.place(), walk.entries())
}

/// The same of a location.
fn next_location_in_profile<'a>(walk: &mut LocListIter<'a>) -> Step<Told<'a>> {
    (walk.next_in_profile().map(|found| found.map(told)), walk.place(), walk.entries())
}

/// A walk's base address.
fn base_of(walk: &impl Debug) -> u64 {
    let told = words(walk);
    let behind = told.split("base_address: ").nth(1).expect("a base address");
    behind.split([',', ' ']).next().and_then(|number| number.parse().ok()).expect("a number")
}

/// A list with its base address, its walk in the profile and its ordinary walk, both without the last end,
/// which stays, and with the base address that they leave.
type Example<'a, T> = (&'a [u8], Encoding, u64, &'a [Step<T>], &'a [Step<T>], u64);

/// Both walks of an example.
#[track_caller]
fn example<T: Clone + PartialEq + Debug, W: Debug>(
    c: &mut Checks,
    (_, _, _, profile, ordinary, base): Example<T>,
    open: impl Fn() -> W,
    in_profile: impl Fn(&mut W) -> Step<T>,
    next: impl Fn(&mut W) -> Step<T>,
) {
    let ending = |steps: &[Step<T>]| {
        let last = steps.last().cloned().expect("a step");
        let end = (Ok(None), last.1, last.2);
        let ends = if last.0 == Ok(None) { 1 } else { 2 };
        [steps, &vec![end; ends]].concat()
    };
    let mut walk = open();
    c.same((steps(|| in_profile(&mut walk)), base_of(&walk)), (ending(profile), base));
    let mut walk = open();
    c.same((steps(|| next(&mut walk)), base_of(&walk)), (ending(ordinary), base));
}

fn range_next_in_profile(c: &mut Checks) {
    let (five, one, bare) = (encoding(5, 4), encoding(5, 1), encoding(4, 2));
    let is = |begin, end| Ok(Some(at(begin, end)));
    let (end, dead) = (Ok(None), 0xffff_fffe);
    // The scope's table has two rows, so that an index of 2 has none.
    let first = [(Err(EOF), 2, 1), (is(0x10, 0x11), 8, 2), (end, 9, 3)];
    let lookup = [(Err(EOF), 3, 1), (is(0x10, 0x11), 9, 2), (end, 10, 3)];
    let by_dead = [(is(0x10, 0x11), 11, 2), (end, 12, 3)];
    let behind_empty = [(is(0x10, 0x11), 15, 2), (end, 16, 3)];
    let examples: &[Example<Range>] = &[
        (
            &[4, 1, 0x82, 0, 0],
            five,
            0x1000,
            &[(Err(PADDED), 5, 1)],
            &[(is(0x1001, 0x1002), 4, 1), (end, 5, 2)],
            0x1000,
        ),
        // Before the lookup, and without padding the lookup's own refusal.
        (&[1, 0x82, 0, 7, 0x10, 0, 0, 0, 1, 0], five, 0, &[(Err(PADDED), 10, 1)], &lookup, 0),
        (&[1, 2, 7, 0x10, 0, 0, 0, 1, 0], five, 0, &first, &first, 0),
        // A dead base is nothing by itself.
        (
            &[5, 0xfe, 0xff, 0xff, 0xff, 4, 0, 1, 0],
            five,
            0,
            &[(Err(TOMBSTONE), 9, 2)],
            &[(end, 9, 3)],
            dead,
        ),
        (&[5, 0xfe, 0xff, 0xff, 0xff, 7, 0x10, 0, 0, 0, 1, 0], five, 0, &by_dead, &by_dead, dead),
        (&[4, 0, 1, 0], five, dead, &[(Err(TOMBSTONE), 4, 1)], &[(end, 4, 2)], dead),
        // A dead begin; an empty range there, too.
        (
            &[6, 0xfe, 0xff, 0xff, 0xff, 0xff, 0xff, 0xff, 0xff, 0],
            five,
            0,
            &[(Err(TOMBSTONE), 10, 1)],
            &[(end, 10, 2)],
            0,
        ),
        (
            &[6, 0xfe, 0xff, 0xff, 0xff, 0xfe, 0xff, 0xff, 0xff, 0],
            five,
            0,
            &[(Err(TOMBSTONE), 10, 1)],
            &[(end, 10, 2)],
            0,
        ),
        // Backward, and empty.
        (
            &[6, 0x20, 0, 0, 0, 0x10, 0, 0, 0, 0],
            five,
            0,
            &[(Err(BACKWARD), 10, 1)],
            &[(end, 10, 2)],
            0,
        ),
        (
            &[6, 0x10, 0, 0, 0, 0x10, 0, 0, 0, 7, 0x10, 0, 0, 0, 1, 0],
            five,
            0,
            &behind_empty,
            &behind_empty,
            0,
        ),
        (&[7, 0xf0, 0x20, 0], one, 0, &[(Err(BACKWARD), 4, 1)], &[(end, 4, 2)], 0),
        (&[2, 1, 0, 0], five, 0, &[(Err(BACKWARD), 4, 1)], &[(end, 4, 2)], 0),
        (&[2, 2, 0, 7, 0x10, 0, 0, 0, 1, 0], five, 0, &lookup, &lookup, 0),
        (&[4, 0x80], five, 0, &[(Err(EOF), 2, 0)], &[(Err(EOF), 2, 0)], 0),
        (&[4, 0x80, 0], five, 0, &[(Err(EOF), 3, 0)], &[(Err(EOF), 3, 0)], 0),
        // Bare pairs.
        (
            &[0xfe, 0xff, 0xfe, 0xff, 0, 0, 0, 0],
            bare,
            0,
            &[(Err(TOMBSTONE), 8, 1)],
            &[(end, 8, 2)],
            0,
        ),
        (&[3, 0, 1, 0, 0, 0, 0, 0], bare, 0, &[(Err(BACKWARD), 8, 1)], &[(end, 8, 2)], 0),
        // 16 before 17; the base and not the sum that wraps, as it is and not cut to the size.
        (&[6, 0xff, 0x10, 0], one, 0, &[(Err(TOMBSTONE), 4, 1)], &[(end, 4, 2)], 0),
        (&[4, 5, 1, 0], one, 0xfe, &[(Err(TOMBSTONE), 4, 1)], &[(end, 4, 2)], 0xfe),
        (&[4, 2, 3, 0], one, 0xff, &[(Err(TOMBSTONE), 4, 1)], &[(end, 4, 2)], 0xff),
        (&[4, 2, 3, 0], one, 0x110, &[(Err(TOMBSTONE), 4, 1)], &[(end, 4, 2)], 0x110),
        (&[], five, 7, &[(end, 0, 0)], &[(end, 0, 0)], 7),
    ];
    for &one in examples {
        let open = || open_ranges(one.0, one.1, one.2);
        example(c, one, open, next_range_in_profile, next_range);
    }
    // Marks before each of the three, and all calls on one walk.
    let list = [4, 0x81, 0, 2, 4, 2, 1, 6, 0xfe, 0xff, 4, 3, 4, 4, 0x81, 0, 3, 0];
    let mut walk = marked_ranges(&list, one, 0x10);
    let padded = (Err(PADDED), 18, 1);
    c.same((walk.set_mark(0), next_range_in_profile(&mut walk)), (Ok(()), padded));
    c.same((walk.set_mark(1), next_range_in_profile(&mut walk)), (Ok(()), (end, 18, 1)));
    c.same((walk.return_to(0), next_range_in_profile(&mut walk)), (Ok(()), padded));
    c.same((walk.return_to(1), next_range_in_profile(&mut walk)), (Ok(()), (end, 18, 1)));
    c.same((walk.return_to(0), next_range(&mut walk)), (Ok(()), (is(0x11, 0x12), 4, 1)));
    let backward = (Err(BACKWARD), 18, 2);
    c.same((walk.set_mark(2), next_range_in_profile(&mut walk)), (Ok(()), backward));
    c.same((walk.return_to(2), next_range_in_profile(&mut walk)), (Ok(()), backward));
    let pair = RawRngListEntry::OffsetPair { begin: 2, end: 1 };
    c.same((walk.return_to(2), walk.next_raw()), (Ok(()), Ok(Some(pair))));
    let tombstone = (Err(TOMBSTONE), 18, 3);
    c.same((walk.set_mark(3), next_range_in_profile(&mut walk)), (Ok(()), tombstone));
    c.same((walk.next(), walk.next_raw()), (Ok(None), Ok(None)));
    c.same((walk.return_to(3), next_range_in_profile(&mut walk)), (Ok(()), tombstone));
    c.same((walk.return_to(3), next_range(&mut walk)), (Ok(()), (is(0x13, 0x14), 13, 4)));
    c.same(next_range_in_profile(&mut walk), (Err(PADDED), 18, 5));
    // An address size that is not read is refused when the list is opened.
    for size in [0, 5, 9, 255] {
        let refused = Err(Error::UnsupportedAddressSize(size.into()));
        let lists = range_lists(&[4, 0x81, 0, 2], Little);
        let none = DebugAddr::default();
        let walk = lists.ranges(RangeListsOffset(0), encoding(5, size), 0, &none, DebugAddrBase(0));
        c.same(walk.and_then(|mut walk| walk.next_in_profile()), refused);
    }
    any_lists(c, 600, |lists| {
        let (list, at) = lists.list(&RANGE_OPERANDS, lists.encoding.version >= 5);
        lists.profile_of_ranges(range_lists(&list, lists.endian), at);
    });
}

fn location_next_in_profile(c: &mut Checks) {
    let (five, one, older) = (encoding(5, 4), encoding(5, 1), encoding(4, 1));
    let is = |begin, end, bytes, offset| Ok(Some((at(begin, end), bytes, offset)));
    let (end, none): (Result<Option<Told>>, &[u8]) = (Ok(None), &[]);
    let first = [(Err(EOF), 2, 1), (is(0x10, 0x11, none, 9), 9, 2), (end, 10, 3)];
    let by_dead = [(is(0x10, 0x11, none, 6), 6, 2), (end, 7, 3)];
    let behind_empty = [(is(0x10, 0x11, none, 8), 8, 2), (end, 9, 3)];
    let by_default = [(is(0, u64::MAX, &[0x50], 2), 3, 1), (end, 4, 2)];
    let examples: &[(bool, Example<Told>)] = &[
        // An expression's length is padded. A default location is neither dead nor backward.
        (
            false,
            (
                &[5, 0x81, 0, 0x50, 0],
                five,
                0,
                &[(Err(PADDED), 5, 1)],
                &[(is(0, u64::MAX, &[0x50], 3), 4, 1), (end, 5, 2)],
                0,
            ),
        ),
        (false, (&[5, 1, 0x50, 0], five, u64::MAX, &by_default, &by_default, u64::MAX)),
        (
            false,
            (
                &[4, 1, 0x82, 0, 1, 0x50, 0],
                five,
                0x1000,
                &[(Err(PADDED), 7, 1)],
                &[(is(0x1001, 0x1002, &[0x50], 5), 6, 1), (end, 7, 2)],
                0x1000,
            ),
        ),
        (false, (&[1, 2, 8, 0x10, 0, 0, 0, 1, 0, 0], five, 0, &first, &first, 0)),
        (
            false,
            (&[6, 0xfe, 4, 0, 1, 0, 0], one, 0, &[(Err(TOMBSTONE), 7, 2)], &[(end, 7, 3)], 0xfe),
        ),
        (false, (&[6, 0xfe, 8, 0x10, 1, 0, 0], one, 0, &by_dead, &by_dead, 0xfe)),
        (false, (&[7, 0xfe, 0xfe, 0, 0], one, 0, &[(Err(TOMBSTONE), 5, 1)], &[(end, 5, 2)], 0)),
        (false, (&[7, 0x20, 0x10, 0, 0], one, 0, &[(Err(BACKWARD), 5, 1)], &[(end, 5, 2)], 0)),
        (false, (&[7, 0x10, 0x10, 0, 8, 0x10, 1, 0, 0], one, 0, &behind_empty, &behind_empty, 0)),
        (false, (&[8, 0xf0, 0x20, 0, 0], one, 0, &[(Err(BACKWARD), 5, 1)], &[(end, 5, 2)], 0)),
        // Without its expression an entry is not whole.
        (false, (&[4, 0x80, 0, 1], five, 0, &[(Err(EOF), 4, 0)], &[(Err(EOF), 4, 0)], 0)),
        // Bare pairs, and split lists: there an expression's length is not LEB128.
        (false, (&[3, 1, 0, 0, 0, 0], older, 0, &[(Err(BACKWARD), 6, 1)], &[(end, 6, 2)], 0)),
        (true, (&[4, 2, 1, 0, 0, 0], older, 0, &[(Err(BACKWARD), 6, 1)], &[(end, 6, 2)], 0)),
        (
            true,
            (
                &[4, 0x81, 0, 2, 0, 0, 0],
                older,
                0,
                &[(Err(PADDED), 7, 1)],
                &[(is(1, 2, none, 6), 6, 1), (end, 7, 2)],
                0,
            ),
        ),
    ];
    for &(split, one) in examples {
        let open = || open_locations(one.0, one.1, split, one.2);
        example(c, one, open, next_location_in_profile, next_location);
    }
    // Marks before each of the three, and all calls on one walk.
    let list = [5, 0x81, 0, 0x50, 4, 2, 1, 0, 7, 0xfe, 0xff, 0, 4, 3, 4, 1, 0x51, 0];
    let mut walk = Marked::new(open_locations(&list, one, false, 0x10));
    let (padded, backward) = ((Err(PADDED), 18, 1), (Err(BACKWARD), 18, 2));
    let tombstone = (Err(TOMBSTONE), 18, 3);
    c.same((walk.set_mark(0), next_location_in_profile(&mut walk)), (Ok(()), padded));
    c.same((walk.return_to(0), next_location_in_profile(&mut walk)), (Ok(()), padded));
    c.same((walk.return_to(0), walk.next().is_ok(), walk.place()), (Ok(()), true, 4));
    c.same((walk.set_mark(1), next_location_in_profile(&mut walk)), (Ok(()), backward));
    c.same((walk.return_to(1), next_location_in_profile(&mut walk)), (Ok(()), backward));
    c.same((walk.return_to(1), walk.next_raw().is_ok(), walk.place()), (Ok(()), true, 8));
    c.same((walk.set_mark(2), next_location_in_profile(&mut walk)), (Ok(()), tombstone));
    c.same((walk.return_to(2), next_location_in_profile(&mut walk)), (Ok(()), tombstone));
    c.same((walk.return_to(2), walk.next().is_ok(), walk.place()), (Ok(()), true, 17));
    c.same(next_location_in_profile(&mut walk), (end, 18, 5));
    for file in [DwarfFileType::Main, DwarfFileType::Dwo] {
        any_lists(c, 600, |lists| {
            let kinds = lists.encoding.version >= 5 || file == DwarfFileType::Dwo;
            let (list, at) = lists.list(&LOCATION_OPERANDS, kinds);
            lists.profile_of_locations(&list, file, at);
        });
    }
}

/// The three that only the profile refuses.
const THREE_MORE: [Error; 3] = [PADDED, TOMBSTONE, BACKWARD];

/// Whether a walk in the profile is the ordinary one up to one of the three, which is met in the ordinary
/// walk's next step and leaves nothing of the list; with no padded entry before, and one there where it is
/// 15. Then with which of the three.
fn follows<T: PartialEq>(
    profile: &[Step<T>],
    ordinary: &[Step<T>],
    padded: &[bool],
    len: u64,
) -> Option<Option<Error>> {
    let broken = |(got, ..): &Step<T>| matches!(got, Err(e) if THREE_MORE.contains(e));
    let Some(i) = profile.iter().position(broken) else {
        return (profile == ordinary && !padded.contains(&true)).then_some(None);
    };
    let (got, place, entries) = &profile[i];
    let before = i.checked_sub(1).map_or(0, |i| profile[i].2);
    let (own, earlier) = padded.get(..*entries as usize)?.split_last()?;
    let holds = profile[..i] == ordinary[..i]
        && profile[i + 1..].iter().all(|step| *step == (Ok(None), len, *entries))
        && *place == len
        && before < *entries
        && *entries <= ordinary[i].2
        && !earlier.contains(&true)
        && *own == matches!(got, Err(PADDED));
    holds.then(|| got.as_ref().err().copied())
}

impl AnyLists<'_> {
    /// A number that is small or, of the encoding's size, near the largest.
    fn edge(&mut self) -> u64 {
        let ones = u64::MAX >> (64 - 8 * self.encoding.address_size);
        if self.below(4) == 0 { ones - self.below(4) } else { self.below(40) }
    }

    /// An address table of twenty such rows.
    fn edges(&mut self) -> Vec<u8> {
        let (size, endian) = (self.encoding.address_size.into(), self.endian);
        (0..20).flat_map(|_| fixed(self.edge(), size, endian)).collect()
    }

    /// A walk in the profile beside an ordinary one and one of raw entries.
    fn compare_profile<W: Clone, T: PartialEq + Debug>(
        &mut self,
        (list, opened): (&[u8], W),
        in_profile: impl Fn(&mut W) -> Step<T>,
        next: impl Fn(&mut W) -> Step<T>,
        padded: impl Fn(&mut W) -> Option<bool>,
    ) {
        let (mut one, mut other, mut raw) = (opened.clone(), opened.clone(), opened);
        let (profile, ordinary) = (steps(|| in_profile(&mut one)), steps(|| next(&mut other)));
        let padded: Vec<bool> = std::iter::from_fn(|| padded(&mut raw)).collect();
        match follows(&profile, &ordinary, &padded, list.len() as u64) {
            Some(None) => self.met[0] += 1,
            Some(Some(PADDED)) => self.met[1] += 1,
            Some(_) => self.met[2] += 1,
            None => self.wrong.push(words(&(list, profile, ordinary, padded))),
        }
    }

    /// The same of a range list.
    fn profile_of_ranges<K: Kinds>(&mut self, lists: RangeLists<'_, K>, at: usize) {
        let (table, from) = (self.edges(), self.edge());
        let (table, offset) = (DebugAddr::new(&table, self.endian), RangeListsOffset(at as u64));
        let walk = lists.ranges(offset, self.encoding, from, &table, DebugAddrBase(0));
        self.compare_profile(
            (lists.debug_rnglists().reader().slice(), walk.expect("an open list")),
            next_range_in_profile,
            next_range,
            |walk| Some(walk.next_raw_noted().ok()??.padded),
        );
    }

    /// The same of a location list.
    fn profile_of_locations(&mut self, list: &[u8], file: DwarfFileType, at: usize) {
        let (table, from, base) = (self.edges(), self.edge(), DebugAddrBase(0));
        let (table, offset) = (DebugAddr::new(&table, self.endian), LocationListsOffset(at as u64));
        let lists = location_lists(list, self.endian);
        let walk = match file {
            DwarfFileType::Main => lists.locations(offset, self.encoding, from, &table, base),
            DwarfFileType::Dwo => lists.locations_dwo(offset, self.encoding, from, &table, base),
        };
        self.compare_profile(
            (list, walk.expect("an open list")),
            next_location_in_profile,
            next_location,
            |walk| Some(walk.next_raw_noted().ok()??.padded),
        );
    }
}

// Coverage, sheets, canonical lists

fn is(coverage: Result<Coverage>) -> Result<Vec<Range>> {
    coverage.map(|coverage| coverage.ranges().collect())
}

/// Entries `07 begin 01` of size 4, each begin two above the one before.
fn apart(n: usize) -> Vec<u8> {
    (0..n as u32).flat_map(|i| join(&[&[7], &(0x10 + 2 * i).to_le_bytes(), &[1]])).collect()
}

/// The scope's list for refusal 10: the same entry n times, and a byte.
fn same(n: usize, behind: u8) -> Vec<u8> {
    join(&[&[7, 0x10, 0, 0, 0, 1].repeat(n), &[behind]])
}

/// n default locations, and a byte.
fn defaults(n: usize, behind: u8) -> Vec<u8> {
    join(&[&[5, 0].repeat(n), &[behind]])
}

/// The scope's two ranges that touch: 0x20 to 0x30 and 0x10 to 0x20.
const TOUCHING: &[u8] = &[7, 0x20, 0, 0, 0, 0x10, 7, 0x10, 0, 0, 0, 0x10, 0];
/// The same with addresses of three bytes.
const TOUCHING_3: &[u8] = &[7, 0x20, 0, 0, 0x10, 7, 0x10, 0, 0, 0x10, 0];
/// Their canonical list.
const TOUCHING_CANONICAL: &[u8] = &[7, 0x10, 0, 0, 0, 0, 0, 0, 0, 0x20, 0];
/// The canonical list of 030201 to 060504, whose bytes all differ.
const THREE_CANONICAL: &[u8] = &[7, 1, 2, 3, 0, 0, 0, 0, 0, 0x83, 0x86, 0x0c, 0];
/// Their sheet.
const TOUCHING_SHEET: &[u8] = &[1, 0, 8, 0, 0x10, 0, 0, 0, 0, 0, 0, 0, 0x30, 0, 0, 0, 0, 0, 0, 0];

fn range_coverage(c: &mut Checks) {
    let cover = |bytes: &[u8], size, offset| {
        let table = table_of(size);
        let lists =
            RangeLists::new(DebugRanges::new(bytes, Little), DebugRngLists::new(bytes, Little));
        is(lists.coverage(RangeListsOffset(offset), encoding(5, size), 0, &table, DebugAddrBase(8)))
    };
    c.same(cover(TOUCHING, 4, 0), Ok(vec![at(0x10, 0x30)]));
    c.same(cover(TOUCHING, 4, 6), Ok(vec![at(0x10, 0x20)]));
    c.same(cover(&[3, 1, 8, 3, 0, 4, 0], 4, 0), Ok(vec![at(0x10, 0x14), at(0x20, 0x28)]));
    c.same(cover(&[6, 1, 9, 6, 2, 3, 6, 8, 10, 0], 1, 0), Ok(vec![at(1, 10)]));
    c.same(cover(&[], 4, 0), Ok(vec![]));
    c.same(cover(&[0], 4, 0), Ok(vec![]));
    let ends = |n| cover(&apart(n), 4, 0).map(|all| (all.len(), all[0], all[n - 1]));
    c.same(ends(1024), Ok((1024, at(0x10, 0x11), at(2062, 2063))));
    c.same(ends(1025), Ok((1025, at(0x10, 0x11), at(2064, 2065))));
    c.same(ends(3000), Ok((3000, at(0x10, 0x11), at(6014, 6015))));
    c.same(cover(&same(3000, 0), 4, 0), Ok(vec![at(0x10, 0x11)]));
    c.same(cover(&same(3001, 0), 4, 0), Err(Error::TooManyRanges));
    c.same(cover(&apart(3001), 4, 0), Err(Error::TooManyRanges));
    // The first of the two.
    c.same(cover(&same(3000, 8), 4, 0), Err(Error::UnknownRangeListsEntry(8)));
    c.same(cover(&same(3001, 8), 4, 0), Err(Error::TooManyRanges));
    c.same(cover(&[2, 0, 2, 0], 4, 0), Err(EOF));
    c.same(cover(TOUCHING, 4, u64::MAX), Err(EOF));
    c.same(cover(TOUCHING, 5, u64::MAX), Err(Error::UnsupportedAddressSize(5)));
    c.same(cover(TOUCHING_3, 3, 0), Ok(vec![at(0x10, 0x30)]));
    c.same(cover(&[3, 1, 8, 3, 0, 4, 0], 3, 0), Ok(vec![at(0x10, 0x14), at(0x20, 0x28)]));
    let all = [7, 0, 0, 0, 0xff, 0xff, 0xff, 7, 0];
    c.same(cover(&all, 3, 0), Ok(vec![at(0, 0xff_ffff)]));
    c.same(cover(&[6, 1, 2, 3, 4, 5, 6], 3, 0), Ok(vec![at(0x03_0201, 0x06_0504)]));
    c.same(cover(&[7, 0xf0, 0xff, 0xff, 0x10, 0], 3, 0), Ok(vec![]));
    c.same(cover(&[6, 0x10, 0], 3, 0), Err(EOF));
    c.same(cover(&[], 3, 1), Err(EOF));
}

/// What places hold before a call.
const OLD: u64 = 0xeeee_eeee_eeee_eeee;

/// What a call answers that puts ranges into slices of two lengths, and all of the slices after it.
type Put = (Result<usize>, Vec<u64>, Vec<u64>);

fn put(b: usize, e: usize, call: impl FnOnce(&mut [u64], &mut [u64]) -> Result<usize>) -> Put {
    let (mut begins, mut ends) = (vec![OLD; b], vec![OLD; e]);
    let count = call(&mut begins, &mut ends);
    (count, begins, ends)
}

/// These ranges at the front, the other places as they were.
fn holding(b: usize, e: usize, ranges: &[(u64, u64)]) -> Put {
    put(b, e, |begins, ends| {
        for (i, &(begin, end)) in ranges.iter().enumerate() {
            (begins[i], ends[i]) = (begin, end);
        }
        Ok(ranges.len())
    })
}

/// Nothing is written.
fn left(b: usize, e: usize, refused: Error) -> Put {
    put(b, e, |_, _| Err(refused))
}

fn range_runs(c: &mut Checks) {
    let runs = |bytes: &[u8], size, offset, b, e| {
        let (lists, table) = (range_lists(bytes, Little), table_of(size));
        let (offset, encoding, base) =
            (RangeListsOffset(offset), encoding(5, size), DebugAddrBase(8));
        put(b, e, |begins, ends| lists.runs(offset, encoding, 0, &table, base, begins, ends))
    };
    c.same(runs(TOUCHING, 4, 0, 1, 1), holding(1, 1, &[(0x10, 0x30)]));
    c.same(runs(TOUCHING, 4, 0, 2, 2), holding(2, 2, &[(0x10, 0x30)]));
    c.same(runs(TOUCHING, 4, 0, 0, 0), left(0, 0, Error::NoSpace));
    c.same(runs(TOUCHING_3, 3, 0, 1, 1), holding(1, 1, &[(0x10, 0x30)]));
    c.same(runs(TOUCHING, 4, 6, 1, 3), holding(1, 3, &[(0x10, 0x20)]));
    // Two ranges into slices of every two lengths.
    for (b, e) in (0..5).flat_map(|b| (0..5).map(move |e| (b, e))) {
        let two = runs(&[3, 1, 8, 3, 0, 4, 0], 4, 0, b, e);
        if b < 2 || e < 2 {
            c.same(two, left(b, e, Error::NoSpace));
        } else {
            c.same(two, holding(b, e, &[(0x10, 0x14), (0x20, 0x28)]));
        }
    }
    // No range needs no place.
    for bytes in [&[][..], &[0]] {
        c.same(runs(bytes, 4, 0, 0, 0), holding(0, 0, &[]));
        c.same(runs(bytes, 4, 0, 3, 2), holding(3, 2, &[]));
    }
    // As many as short arrays have room for, one more, as many as the limit before, one more, and as
    // many as may be.
    for n in [32, 33, 1024, 1025, 3000] {
        let (list, apart) = (apart(n), |i| (0x10 + 2 * i, 0x11 + 2 * i));
        let all: Vec<(u64, u64)> = (0..n as u64).map(apart).collect();
        c.same(runs(&list, 4, 0, n, n), holding(n, n, &all));
        c.same(runs(&list, 4, 0, n + 1, n + 2), holding(n + 1, n + 2, &all));
        c.same(runs(&list, 4, 0, n - 1, n), left(n - 1, n, Error::NoSpace));
        c.same(runs(&list, 4, 0, n, n - 1), left(n, n - 1, Error::NoSpace));
    }
    c.same(runs(&same(3000, 0), 4, 0, 2, 2), holding(2, 2, &[(0x10, 0x11)]));
    // The first refusal of opening and walk or 10, and then 11.
    c.same(runs(&apart(3001), 4, 0, 3001, 3001), left(3001, 3001, Error::TooManyRanges));
    for n in [0, 1] {
        let refused = |bytes: &[u8], size, offset| runs(bytes, size, offset, n, n);
        let unknown = Error::UnknownRangeListsEntry(8);
        c.same(refused(&same(3001, 0), 4, 0), left(n, n, Error::TooManyRanges));
        c.same(refused(&same(3001, 8), 4, 0), left(n, n, Error::TooManyRanges));
        c.same(refused(&same(3000, 8), 4, 0), left(n, n, unknown));
        c.same(refused(&join(&[&TOUCHING[..12], &[8]]), 4, 0), left(n, n, unknown));
        c.same(refused(&[7, 0x20, 0, 0, 0, 0x10, 2, 0, 2, 0], 4, 0), left(n, n, EOF));
        c.same(
            refused(&join(&[&[3], &INDEX_2_61, &[8, 0]]), 8, 0),
            left(n, n, Error::UnsupportedOffset),
        );
        c.same(refused(TOUCHING, 4, u64::MAX), left(n, n, EOF));
        c.same(refused(TOUCHING, 5, u64::MAX), left(n, n, Error::UnsupportedAddressSize(5)));
    }
}

fn location_coverage(c: &mut Checks) {
    let cover = |bytes: &[u8], version, file| {
        let table = DebugAddr::new(TABLE, Little);
        let lists =
            LocationLists::new(DebugLoc::new(bytes, Little), DebugLocLists::new(bytes, Little));
        is(lists.coverage(
            LocationListsOffset(0),
            encoding(version, 4),
            file,
            0,
            &table,
            DebugAddrBase(8),
        ))
    };
    let (main, dwo) = (DwarfFileType::Main, DwarfFileType::Dwo);
    c.same(
        cover(&[4, 1, 2, 1, 0x50, 4, 2, 4, 1, 0x51, 4, 6, 7, 0, 0], 5, main),
        Ok(vec![at(1, 4), at(6, 7)]),
    );
    c.same(cover(&[5, 0, 0], 5, main), Ok(vec![at(0, u64::MAX)]));
    c.same(cover(&[3, 0, 8, 0, 0, 0, 1, 0, 0x50, 0], 4, dwo), Ok(vec![at(0x10, 0x18)]));
    c.same(cover(&[], 4, main), Ok(vec![]));
    c.same(cover(&[9], 5, main), Err(Error::UnknownLocListsEntry(9)));
    c.same(cover(&[3, 2, 8, 0, 0, 0, 0, 0], 4, dwo), Err(EOF));
    c.same(cover(&defaults(3000, 0), 5, main), Ok(vec![at(0, u64::MAX)]));
    c.same(cover(&defaults(3001, 0), 5, main), Err(Error::TooManyRanges));
    c.same(cover(&defaults(3000, 9), 5, main), Err(Error::UnknownLocListsEntry(9)));
    c.same(cover(&defaults(3001, 9), 5, main), Err(Error::TooManyRanges));
    let (lists, none) = (location_lists(&[9, 4, 1, 2, 0, 0], Little), DebugAddr::default());
    let (offset, five, base) = (LocationListsOffset(1), encoding(5, 4), DebugAddrBase(0));
    let coverage = lists.coverage(offset, five, main, 0x100, &none, base);
    c.same(is(coverage), Ok(vec![at(0x101, 0x102)]));
    let of_three = |bytes: &[u8], version, file| {
        let (lists, table) = (location_lists(bytes, Little), table_of(3));
        let (offset, encoding) = (LocationListsOffset(0), encoding(version, 3));
        is(lists.coverage(offset, encoding, file, 0, &table, DebugAddrBase(8)))
    };
    c.same(
        of_three(&[8, 0x20, 0, 0, 0x10, 0, 7, 0x10, 0, 0, 0x20, 0, 0, 1, 0x50, 0], 5, main),
        Ok(vec![at(0x10, 0x30)]),
    );
    c.same(of_three(&[1, 2, 3, 4, 5, 6, 0, 0], 4, main), Ok(vec![at(0x03_0201, 0x06_0504)]));
    c.same(of_three(&[3, 0, 8, 0, 0, 0, 1, 0, 0x50, 0], 4, dwo), Ok(vec![at(0x10, 0x18)]));
    c.same(of_three(&[7, 0x10, 0], 5, main), Err(EOF));
}

fn location_runs(c: &mut Checks) {
    let runs = |bytes: &[u8], version, size, file, b, e| {
        let (lists, table) = (location_lists(bytes, Little), table_of(size));
        let (offset, encoding, base) =
            (LocationListsOffset(0), encoding(version, size), DebugAddrBase(8));
        put(b, e, |begins, ends| lists.runs(offset, encoding, file, 0, &table, base, begins, ends))
    };
    let (main, dwo) = (DwarfFileType::Main, DwarfFileType::Dwo);
    for (b, e) in (0..5).flat_map(|b| (0..5).map(move |e| (b, e))) {
        let bytes = [4, 1, 2, 1, 0x50, 4, 2, 4, 1, 0x51, 4, 6, 7, 0, 0];
        let two = runs(&bytes, 5, 4, main, b, e);
        if b < 2 || e < 2 {
            c.same(two, left(b, e, Error::NoSpace));
        } else {
            c.same(two, holding(b, e, &[(1, 4), (6, 7)]));
        }
    }
    // A list of a .dwo file, which is none of the main file.
    let gnu = [3, 0, 8, 0, 0, 0, 1, 0, 0x50, 0];
    for size in [3, 4] {
        c.same(runs(&gnu, 4, size, dwo, 1, 1), holding(1, 1, &[(0x10, 0x18)]));
        c.same(runs(&gnu, 4, size, dwo, 2, 3), holding(2, 3, &[(0x10, 0x18)]));
        c.same(runs(&gnu, 4, size, dwo, 1, 0), left(1, 0, Error::NoSpace));
        c.same(runs(&gnu, 4, size, dwo, 0, 1), left(0, 1, Error::NoSpace));
    }
    c.same(runs(&gnu, 4, 4, main, 1, 1), left(1, 1, EOF));
    c.same(runs(&[], 4, 4, main, 0, 0), holding(0, 0, &[]));
    c.same(runs(&[0], 5, 4, dwo, 0, 2), holding(0, 2, &[]));
    let all = [(0, u64::MAX)];
    c.same(runs(&defaults(3000, 0), 5, 4, main, 2, 2), holding(2, 2, &all));
    for n in [0, 1] {
        let refused = |bytes: &[u8], version, size, file| runs(bytes, version, size, file, n, n);
        let unknown = Error::UnknownLocListsEntry(9);
        c.same(refused(&defaults(3001, 0), 5, 4, main), left(n, n, Error::TooManyRanges));
        c.same(refused(&defaults(3001, 9), 5, 4, main), left(n, n, Error::TooManyRanges));
        c.same(refused(&defaults(3000, 9), 5, 4, main), left(n, n, unknown));
        c.same(refused(&[4, 1, 2, 0, 9], 5, 4, main), left(n, n, unknown));
        c.same(refused(&[3, 2, 8, 0, 0, 0, 0, 0], 4, 4, dwo), left(n, n, EOF));
        c.same(refused(&gnu, 4, 7, dwo), left(n, n, Error::UnsupportedAddressSize(7)));
    }
    let (lists, none) = (location_lists(&[9, 4, 1, 2, 0, 0], Little), DebugAddr::default());
    let (five, base) = (encoding(5, 4), DebugAddrBase(0));
    let from = |offset, b, e| {
        let offset = LocationListsOffset(offset);
        put(b, e, |begins, ends| lists.runs(offset, five, main, 0x100, &none, base, begins, ends))
    };
    c.same(from(1, 1, 1), holding(1, 1, &[(0x101, 0x102)]));
    c.same(from(u64::MAX, 0, 0), left(0, 0, EOF));
}

fn coverage_from_canonical(c: &mut Checks) {
    let cover = |bytes: &[u8]| is(CanonicalList::new(bytes).coverage());
    c.same(cover(TOUCHING_CANONICAL), Ok(vec![at(0x10, 0x30)]));
    c.same(cover(&[0]), Ok(vec![]));
    c.same(cover(&[]), Ok(vec![]));
    c.same(cover(&TOUCHING_CANONICAL[..9]), Err(EOF));
    c.same(cover(&[3, 0, 8, 0]), Err(EOF));
    c.same(cover(&join(&[&[3], &INDEX_2_61, &[8, 0]])), Err(Error::UnsupportedOffset));
    c.same(cover(&join(&[&[4], &NINE, &[2]])), Err(Error::BadUnsignedLeb128));
    c.same(cover(&[8]), Err(Error::UnknownRangeListsEntry(8)));
    let many = |n, behind| join(&[&TOUCHING_CANONICAL[..10].repeat(n), &[behind]]);
    c.same(cover(&many(3000, 0)), Ok(vec![at(0x10, 0x30)]));
    c.same(cover(&many(3001, 0)), Err(Error::TooManyRanges));
    c.same(cover(&many(3000, 8)), Err(Error::UnknownRangeListsEntry(8)));
    c.same(cover(&many(3001, 8)), Err(Error::TooManyRanges));
}

/// A sheet by its fields.
fn sheet_of(n: u16, width: u16, numbers: &[u64]) -> Vec<u8> {
    let mut bytes = join(&[&n.to_le_bytes(), &width.to_le_bytes()]);
    numbers.iter().for_each(|x| bytes.extend(x.to_le_bytes()));
    bytes
}

fn coverage_from_sheet(c: &mut Checks) {
    let cover = |bytes: &[u8]| is(Sheet::new(bytes).coverage());
    let bad = || Err(Error::BadSheet);
    c.same(cover(TOUCHING_SHEET), Ok(vec![at(0x10, 0x30)]));
    c.same(cover(&[0, 0, 8, 0]), Ok(vec![]));
    c.same(cover(&sheet_of(2, 8, &[0, 3, 2, 4])), Ok(vec![at(0, 2), at(3, 4)]));
    let last = u64::MAX - 2;
    c.same(cover(&sheet_of(1, 8, &[last, u64::MAX])), Ok(vec![at(last, u64::MAX)]));
    c.same(cover(&sheet_of(1, 8, &[last + 1, u64::MAX])), bad());
    c.same(cover(&[1, 0, 8, 0]), bad());
    c.same(cover(&[]), bad());
    c.same(cover(&[0, 0, 8]), bad());
    c.same(cover(&[0, 0, 8, 0, 0]), bad());
    c.same(cover(&sheet_of(1, 4, &[1, 2])), bad());
    c.same(cover(&sheet_of(1, 8, &[2, 2])), bad());
    c.same(cover(&sheet_of(1, 8, &[3, 2])), bad());
    c.same(cover(&sheet_of(2, 8, &[0, 2, 2, 4])), bad());
    c.same(cover(&sheet_of(2, 8, &[4, 0, 5, 1])), bad());
    // A sheet as full as it could be before, one range more, as full as it can be, and one more.
    for (n, head, len) in [
        (1024, [0x00, 0x04, 8, 0], 16_388),
        (1025, [0x01, 0x04, 8, 0], 16_404),
        (3000, [0xb8, 0x0b, 8, 0], 48_004),
    ] {
        let (ranges, sheet) = sheet_apart(n);
        c.same((&sheet[..4], sheet.len()), (&head[..], len));
        c.same(cover(&sheet), Ok(ranges));
        // Written anew, it is the same.
        let mut output = vec![0; SHEET_MAX];
        let anew = Sheet::new(&sheet)
            .coverage()
            .and_then(|all| all.sheet(&mut output).map(|anew| anew.bytes() == sheet));
        c.same(anew, Ok(true));
    }
    let over = sheet_apart(3001).1;
    c.same((&over[..4], over.len()), (&[0xb9, 0x0b, 8, 0][..], 48_020));
    c.same(cover(&over), bad());
}

/// Ranges of one address, each begin two above the one before, and their sheet.
fn sheet_apart(n: u16) -> (Vec<Range>, Vec<u8>) {
    let ranges: Vec<Range> = (0..u64::from(n)).map(|i| at(2 * i, 2 * i + 1)).collect();
    let begins = ranges.iter().map(|range| range.begin);
    let numbers: Vec<u64> = begins.chain(ranges.iter().map(|range| range.end)).collect();
    let sheet = sheet_of(n, 8, &numbers);
    (ranges, sheet)
}

/// What a call writes into an output of a length, and all of the output after it.
fn into(len: usize, call: impl FnOnce(&mut [u8]) -> Result<usize>) -> (Result<usize>, Vec<u8>) {
    let mut output = vec![0xee; len];
    let wrote = call(&mut output);
    (wrote, output)
}

fn untouched(len: usize, e: Error) -> (Result<usize>, Vec<u8>) {
    (Err(e), vec![0xee; len])
}

fn coverage(ranges: &[(u64, u64)]) -> Coverage {
    let ranges: Vec<Range> = ranges.iter().map(|&(begin, end)| at(begin, end)).collect();
    Coverage::from_ranges(&ranges).expect("not more than LIMIT ranges")
}

/// Ranges that make no lawful sheet.
const UNLAWFUL: &[&[(u64, u64)]] =
    &[&[(2, 2)], &[(3, 2)], &[(0, 2), (2, 4)], &[(4, 5), (0, 1)], &[(u64::MAX - 1, u64::MAX)]];

fn sheet(c: &mut Checks) {
    let write =
        |ranges, len| into(len, |o| coverage(ranges).sheet(o).map(|sheet| sheet.bytes().len()));
    c.same(write(&[(0x10, 0x30)], 20), (Ok(20), TOUCHING_SHEET.to_vec()));
    c.same(write(&[(0x10, 0x30)], 22), (Ok(20), join(&[TOUCHING_SHEET, &[0xee; 2]])));
    c.same(write(&[], 4), (Ok(4), vec![0, 0, 8, 0]));
    c.same(write(&[(0, 2), (3, 4)], 36), (Ok(36), sheet_of(2, 8, &[0, 3, 2, 4])));
    c.same(write(&[(0x10, 0x30)], 19), untouched(19, Error::NoSpace));
    c.same(write(&[], 0), untouched(0, Error::NoSpace));
    for ranges in UNLAWFUL {
        c.same(write(ranges, 64), untouched(64, Error::BadSheet));
        c.same(write(ranges, 0), untouched(0, Error::BadSheet));
    }
    let many = sheet_apart(3001).0;
    c.same(Coverage::from_ranges(&many).map(|_| ()), Err(Error::BadSheet));
    let full: Vec<(u64, u64)> = (0..3000).map(|i| (2 * i, 2 * i + 1)).collect();
    c.same(write(&full, SHEET_MAX), (Ok(48_004), sheet_apart(3000).1));
    c.same(write(&full, SHEET_MAX - 1), untouched(SHEET_MAX - 1, Error::NoSpace));
    c.same((coverage(&full).len(), coverage(&[]).is_empty()), (3000, true));
}

/// The canonical list of ranges of one address, each begin two above the one before.
fn canonical_apart(n: u64) -> Vec<u8> {
    let entry = |i: u64| join(&[&[7], &(2 * i).to_le_bytes(), &[1]]);
    join(&[&(0..n).flat_map(entry).collect::<Vec<_>>(), &[0]])
}

fn canonical(c: &mut Checks) {
    let write =
        |ranges, len| into(len, |o| coverage(ranges).canonical(o).map(|list| list.bytes().len()));
    c.same(write(&[(0x10, 0x30)], 11), (Ok(11), TOUCHING_CANONICAL.to_vec()));
    c.same(write(&[(0x10, 0x30)], 12), (Ok(11), join(&[TOUCHING_CANONICAL, &[0xee]])));
    c.same(write(&[], 1), (Ok(1), vec![0]));
    let two = [7, 0, 0, 0, 0, 0, 0, 0, 0, 0x7f, 7, 0x80, 0, 0, 0, 0, 0, 0, 0, 0x80, 1, 0];
    c.same(write(&[(0, 0x7f), (0x80, 0x100)], 22), (Ok(22), two.to_vec()));
    let all = join(&[&[7, 0, 0, 0, 0, 0, 0, 0, 0], &[0xff; 9], &[1, 0]]);
    c.same(write(&[(0, u64::MAX)], 20), (Ok(20), all));
    let full: Vec<(u64, u64)> = (0..3000).map(|i| (2 * i, 2 * i + 1)).collect();
    c.same(write(&full, 30_001), (Ok(30_001), canonical_apart(3000)));
    c.same(write(&full, 30_000), untouched(30_000, Error::NoSpace));
    c.same(write(&[(0x10, 0x30)], 10), untouched(10, Error::NoSpace));
    c.same(write(&[], 0), untouched(0, Error::NoSpace));
    for ranges in UNLAWFUL {
        c.same(write(ranges, 64), untouched(64, Error::BadSheet));
        c.same(write(ranges, 0), untouched(0, Error::BadSheet));
    }
}

fn range_canonical(c: &mut Checks) {
    let write = |bytes: &[u8], size, offset, len| {
        let table = table_of(size);
        let lists = RangeLists::new(DebugRanges::default(), DebugRngLists::new(bytes, Little));
        let (offset, encoding, base) =
            (RangeListsOffset(offset), encoding(5, size), DebugAddrBase(8));
        into(len, |o| {
            lists.canonical(offset, encoding, 0, &table, base, o).map(|list| list.bytes().len())
        })
    };
    c.same(write(TOUCHING, 4, 0, 12), (Ok(11), join(&[TOUCHING_CANONICAL, &[0xee]])));
    c.same(write(&[3, 0, 0x20, 0], 4, 0, 11), (Ok(11), TOUCHING_CANONICAL.to_vec()));
    c.same(write(&[], 4, 0, 1), (Ok(1), vec![0]));
    c.same(write(TOUCHING, 4, 0, 10), untouched(10, Error::NoSpace));
    c.same(write(&[0], 4, 0, 0), untouched(0, Error::NoSpace));
    c.same(write(&[8], 4, 0, 0), untouched(0, Error::UnknownRangeListsEntry(8)));
    c.same(
        write(&join(&[&TOUCHING[..12], &[8]]), 4, 0, 16),
        untouched(16, Error::UnknownRangeListsEntry(8)),
    );
    c.same(write(&apart(3001), 4, 0, 16), untouched(16, Error::TooManyRanges));
    c.same(write(&same(3001, 8), 4, 0, 0), untouched(0, Error::TooManyRanges));
    c.same(write(&same(3000, 8), 4, 0, 0), untouched(0, Error::UnknownRangeListsEntry(8)));
    let one = [7, 0x10, 0, 0, 0, 0, 0, 0, 0, 1, 0];
    c.same(write(&same(3000, 0), 4, 0, 11), (Ok(11), one.to_vec()));
    c.same(write(TOUCHING, 4, u64::MAX, 16), untouched(16, EOF));
    c.same(write(TOUCHING, 0, u64::MAX, 16), untouched(16, Error::UnsupportedAddressSize(0)));
    let (full, all) = (write(&apart(3000), 4, 0, CANONICAL_MAX), 30_001);
    c.same((full.0, full.1[all - 1], full.1[all]), (Ok(all), 0, 0xee));
    for list in [TOUCHING_3, &[3, 0, 0x20, 0]] {
        c.same(write(list, 3, 0, 11), (Ok(11), TOUCHING_CANONICAL.to_vec()));
    }
    // The same addresses in three sizes.
    for (size, list) in [
        (3, &[6, 1, 2, 3, 4, 5, 6, 0][..]),
        (4, &[6, 1, 2, 3, 0, 4, 5, 6, 0, 0]),
        (8, &[6, 1, 2, 3, 0, 0, 0, 0, 0, 4, 5, 6, 0, 0, 0, 0, 0, 0]),
    ] {
        c.same(write(list, size, 0, 13), (Ok(13), THREE_CANONICAL.to_vec()));
        c.same(write(list, size, 0, 12), untouched(12, Error::NoSpace));
    }
    c.same(write(&[6, 0x10, 0], 3, 0, 16), untouched(16, EOF));
    c.same(write(&[], 3, 1, 16), untouched(16, EOF));
}

fn location_canonical(c: &mut Checks) {
    let write = |bytes: &[u8], version, file, offset, len| {
        let table = DebugAddr::new(TABLE, Little);
        let lists =
            LocationLists::new(DebugLoc::new(bytes, Little), DebugLocLists::new(bytes, Little));
        let (offset, encoding, base) =
            (LocationListsOffset(offset), encoding(version, 4), DebugAddrBase(8));
        into(len, |o| {
            lists
                .canonical(offset, encoding, file, 0, &table, base, o)
                .map(|list| list.bytes().len())
        })
    };
    let (main, dwo) = (DwarfFileType::Main, DwarfFileType::Dwo);
    let gnu = [3, 0, 0x20, 0, 0, 0, 1, 0, 0x50, 0];
    c.same(write(&gnu, 4, dwo, 0, 12), (Ok(11), join(&[TOUCHING_CANONICAL, &[0xee]])));
    c.same(write(&[4, 0x10, 0x30, 0, 0], 5, main, 0, 11), (Ok(11), TOUCHING_CANONICAL.to_vec()));
    c.same(write(&[], 5, main, 0, 1), (Ok(1), vec![0]));
    c.same(write(&gnu, 4, dwo, 0, 10), untouched(10, Error::NoSpace));
    c.same(write(&gnu, 4, main, 0, 16), untouched(16, EOF));
    c.same(write(&[9], 5, main, 0, 0), untouched(0, Error::UnknownLocListsEntry(9)));
    c.same(write(&gnu, 4, dwo, u64::MAX, 16), untouched(16, EOF));
    c.same(write(&defaults(3001, 0), 5, main, 0, 16), untouched(16, Error::TooManyRanges));
    c.same(write(&defaults(3000, 9), 5, main, 0, 0), untouched(0, Error::UnknownLocListsEntry(9)));
    let of_three = |bytes: &[u8], version, file| {
        let (lists, table) = (location_lists(bytes, Little), table_of(3));
        let (offset, encoding, base) =
            (LocationListsOffset(0), encoding(version, 3), DebugAddrBase(8));
        into(16, |o| {
            lists
                .canonical(offset, encoding, file, 0, &table, base, o)
                .map(|list| list.bytes().len())
        })
    };
    let three = (Ok(13), join(&[THREE_CANONICAL, &[0xee; 3]]));
    c.same(of_three(&gnu, 4, dwo), (Ok(11), join(&[TOUCHING_CANONICAL, &[0xee; 5]])));
    c.same(of_three(&[7, 1, 2, 3, 4, 5, 6, 1, 0x50, 0], 5, main), three.clone());
    c.same(of_three(&[1, 2, 3, 4, 5, 6, 0, 0], 4, main), three);
    c.same(of_three(&[7, 0x10, 0], 5, main), untouched(16, EOF));
}

fn is_canonical(c: &mut Checks) {
    let canonical = |bytes: &[u8]| CanonicalList::new(bytes).is_canonical();
    let entry = |begin: u64, length: &[u8]| join(&[&[7], &begin.to_le_bytes(), length]);
    let most = join(&[&[0xff; 9], &[1]]);
    c.same(canonical(TOUCHING_CANONICAL), true);
    c.same(canonical(&[0]), true);
    c.same(canonical(&join(&[&entry(0, &[0x7f]), &entry(0x80, &[0x80, 1]), &[0]])), true);
    c.same(canonical(&join(&[&entry(0, &most), &[0]])), true);
    c.same(canonical(&canonical_apart(3000)), true);
    for unlike in [
        // Nothing, no end mark, a byte after it, an end mark alone that is cut off.
        vec![],
        TOUCHING_CANONICAL[..10].to_vec(),
        join(&[TOUCHING_CANONICAL, &[0]]),
        TOUCHING_CANONICAL[..9].to_vec(),
        // A length in more bytes than it needs, of 0, past the last address, or of eleven bytes.
        join(&[&entry(0x10, &[0xa0, 0]), &[0]]),
        join(&[&entry(0x10, &[0]), &[0]]),
        join(&[&entry(1, &most), &[0]]),
        join(&[&entry(0, &[0xff; 10]), &[0]]),
        // Ranges that touch, overlap or descend; more than a coverage has; one at the tombstones.
        join(&[&entry(0x10, &[0x10]), &entry(0x20, &[0x10]), &[0]]),
        join(&[&entry(0x10, &[0x20]), &entry(0x20, &[0x20]), &[0]]),
        join(&[&entry(0x20, &[1]), &entry(0x10, &[1]), &[0]]),
        canonical_apart(3001),
        join(&[&entry(u64::MAX - 1, &[1]), &[0]]),
        // The same range by another kind, and a kind that isn't there.
        join(&[&[6], &0x10u64.to_le_bytes(), &0x30u64.to_le_bytes(), &[0]]),
        vec![4, 0x10, 0x30, 0],
        vec![8],
    ] {
        c.same(canonical(&unlike), false);
    }
}

// Kind numbers

const NO_TABLE: Error = Error::BadKindTable;

/// A table with a code for each of some kinds.
fn table_with(codes: &[(u8, u8)]) -> [u8; 256] {
    let mut table = [NO_KIND; 256];
    for &(code, kind) in codes {
        table[usize::from(code)] = kind;
    }
    table
}

/// A table's bytes that are loaded.
fn loaded(table: &[u8]) -> KindTable {
    KindTable::load(table).expect("a table")
}

/// The supplier's table of the scope's examples.
fn kinds_from_10() -> KindTable {
    loaded(&table_with(&[(0x10, 0), (0x11, 1), (0x14, 4), (0x15, 5), (0x16, 6), (0x17, 7)]))
}

/// Another supplier's code for each kind. Some are other kinds' numbers.
const CODES: [u8; 8] = [0x10, 0xfe, 0x03, 0x02, 0x07, 0, 0x80, 0x04];

fn supplier_kinds() -> KindTable {
    let codes: Vec<(u8, u8)> = CODES.into_iter().zip(0..).collect();
    loaded(&table_with(&codes))
}

/// A list with these codes in place of the kinds that reading meets; bare pairs have none. None where a
/// byte that is no kind is one of the codes.
fn recoded(list: &[u8], encoding: Encoding) -> Option<Vec<u8>> {
    let (mut bytes, mut at) = (list.to_vec(), 0);
    while encoding.version >= 5 && at < list.len() {
        let kind = list[at];
        let Some(&code) = CODES.get(usize::from(kind)) else {
            return (!CODES.contains(&kind)).then_some(bytes);
        };
        bytes[at] = code;
        if kind == 0 {
            break;
        }
        at += 1;
        for operand in RANGE_OPERANDS[usize::from(kind)].chars() {
            at += match operand {
                'a' => usize::from(encoding.address_size),
                _ => 1 + list.iter().skip(at).take_while(|&&byte| byte > 0x7f).count(),
            };
        }
    }
    Some(bytes)
}

fn kinds_load(c: &mut Checks) {
    let load = |table: &[u8]| KindTable::load(table).map(|kinds| kinds.bytes().to_vec());
    let (ok, refused) = (|table: &[u8]| Ok(table.to_vec()), Err(NO_TABLE));
    let own: [(u8, u8); 8] = std::array::from_fn(|kind| (kind as u8, kind as u8));
    let dwarf = table_with(&own);
    c.same(load(&dwarf), ok(&dwarf));
    c.same(KindTable::DWARF.bytes(), &dwarf);
    c.same(KindTable::load(&dwarf), Ok(KindTable::DWARF));
    c.same(load(supplier_kinds().bytes()), ok(supplier_kinds().bytes()));
    // Another length, whatever the bytes.
    for length in (0..=512).filter(|&length| length != 256) {
        c.same(load(&join(&[&dwarf, &[NO_KIND; 256]])[..length]), refused.clone());
    }
    for code in 0..=255 {
        let one = table_with(&[(code, 0)]);
        c.same(load(&one), ok(&one));
    }
    for table in [[NO_KIND; 256], [0; 256], table_with(&[(0, 0), (0xff, 0)]), table_with(&own[1..])]
    {
        c.same(load(&table), refused.clone());
    }
    for kind in 0..8 {
        c.same(load(&table_with(&[&own[..], &[(8, kind)]].concat())), refused.clone());
        let moved = table_with(&[&own[..], &[(kind, NO_KIND), (0xff, kind)]].concat());
        c.same(load(&moved), ok(&moved));
        let without = table_with(&[&own[..], &[(kind, NO_KIND)]].concat());
        c.same(load(&without), if kind == 0 { refused.clone() } else { ok(&without) });
    }
    // Each byte changed to each: 8 to 254 is none, and no kind may have two codes or 0 none.
    for (code, number) in (0..=255).flat_map(|code| (0..=255).map(move |number| (code, number))) {
        let table = table_with(&[&own[..], &[(code, number)]].concat());
        let codes = |kind| table.iter().filter(|&&number| number == kind).count();
        let lawful = table.iter().all(|&number| number < 8 || number == NO_KIND)
            && (0..8).all(|kind| codes(kind) < 2)
            && codes(0) == 1;
        c.same(KindTable::load(&table).is_ok(), lawful);
    }
}

/// What a walk by a table hands out, with its places and counts.
fn steps_by(kinds: &KindTable, bytes: &[u8], encoding: Encoding, base: u64) -> Vec<Step<Range>> {
    let (lists, table) = (range_lists(bytes, Little).with_kinds(kinds), table_of(4));
    let mut walk =
        lists.ranges(RangeListsOffset(0), encoding, base, &table, DebugAddrBase(8)).unwrap();
    steps(|| next_range(&mut walk))
}

fn range_next_by(c: &mut Checks) {
    let (kinds, five, end) = (kinds_from_10(), encoding(5, 4), Ok(None));
    let by = |bytes: &[u8], base_address| steps_by(&kinds, bytes, five, base_address);
    let is = |begin, end| Ok(Some(at(begin, end)));
    let no_code = |code| Err(Error::UnknownRangeListsEntry(code));
    c.same(
        by(&[0x14, 1, 5, 0x10], 0x1000),
        vec![(is(0x1001, 0x1005), 3, 1), (end, 4, 2), (end, 4, 2)],
    );
    c.same(
        by(&[0x17, 0x10, 0, 0, 0, 8, 0x10], 0),
        vec![(is(0x10, 0x18), 6, 1), (end, 7, 2), (end, 7, 2)],
    );
    c.same(by(&[0x14, 4, 5, 0x10], 0x1000)[0], (is(0x1004, 0x1005), 3, 1));
    c.same(by(&[0x14, 0x14, 0x17, 0x10], 0x1000)[0], (is(0x1014, 0x1017), 3, 1));
    c.same(by(&[0x11, 1, 0x14, 0x10, 0x11, 0x10], 0)[0], (is(0x30, 0x31), 5, 2));
    c.same(by(&[0x10, 0x14], 0), vec![(end, 2, 1), (end, 2, 1)]);
    c.same(by(&[], 0), vec![(end, 0, 0), (end, 0, 0)]);
    for code in [0, 4, 7, 8, 0x12, 0x13, 0x18, 0x99, 0xff] {
        let refused = no_code(code.into());
        c.same(by(&[code, 1, 5, 0x10], 0), vec![(refused, 4, 0), (end, 4, 0), (end, 4, 0)]);
        c.same(
            by(&[0x14, 1, 5, code], 0),
            vec![(is(1, 5), 3, 1), (refused, 4, 1), (end, 4, 1), (end, 4, 1)],
        );
    }
    // A failed lookup, and what is refused of an entry.
    c.same(
        by(&[0x11, 2, 0x11, 1, 0x14, 1, 2, 0x14, 1], 7),
        vec![(Err(EOF), 2, 1), (is(0x21, 0x22), 7, 3), (Err(EOF), 9, 3), (end, 9, 3), (end, 9, 3)],
    );
    // 6 when it is opened, before all else.
    let (lists, none) = (range_lists(&[0x99], Little).with_kinds(&kinds), DebugAddr::default());
    let open = |offset, size| {
        let walk =
            lists.ranges(RangeListsOffset(offset), encoding(5, size), 0, &none, DebugAddrBase(0));
        let raw = lists.raw_ranges(RangeListsOffset(offset), encoding(5, size));
        (walk.map(|walk| walk.place()), raw.map(|walk| walk.place()))
    };
    let size = Err(Error::UnsupportedAddressSize(5));
    c.same((open(u64::MAX, 5), open(2, 4)), ((size, size), (Err(EOF), Err(EOF))));
    c.same(open(1, 4), (Ok(1), Ok(1)));
    // Marks, and the walk's clone.
    let list = [0x15, 0, 0x10, 0, 0, 0x14, 1, 2, 0x99];
    let lists = range_lists(&list, Little).with_kinds(&kinds);
    let walk = lists.ranges(RangeListsOffset(0), five, 0, &none, DebugAddrBase(0)).unwrap();
    let mut walk = Marked::new(walk);
    let behind = [(is(0x1001, 0x1002), 8, 2), (no_code(0x99), 9, 2), (end, 9, 2)];
    c.same((walk.set_mark(7), [(); 3].map(|_| next_range(&mut walk))), (Ok(()), behind));
    c.same((walk.return_to(7), [(); 3].map(|_| next_range(&mut walk))), (Ok(()), behind));
    no_mark(c, &mut walk, Marked::return_to, 6);
    // Bare pairs.
    let bare = [1, 0, 2, 0, 0xff, 0xff, 0, 0x20, 4, 0, 7, 0, 0, 0, 0, 0, 1];
    for kinds in [kinds_from_10(), supplier_kinds(), loaded(&table_with(&[(0xff, 0)]))] {
        for version in [2, 4] {
            c.same(
                steps_by(&kinds, &bare, encoding(version, 2), 0),
                vec![(is(1, 2), 4, 1), (is(0x2004, 0x2007), 12, 3), (end, 17, 4), (end, 17, 4)],
            );
        }
    }
}

fn range_next_in_profile_by(c: &mut Checks) {
    let (kinds, one, end) = (kinds_from_10(), encoding(5, 1), Ok(None));
    let (none, base) = (DebugAddr::default(), DebugAddrBase(0));
    let is = |begin, end| Ok(Some(at(begin, end)));
    let by = |bytes: &[u8], base_address| {
        let lists = range_lists(bytes, Little).with_kinds(&kinds);
        let mut walk = lists.ranges(RangeListsOffset(0), one, base_address, &none, base).unwrap();
        steps(|| next_range_in_profile(&mut walk))
    };
    let broken = |error, place, entries| {
        vec![(Err(error), place, entries), (end, place, entries), (end, place, entries)]
    };
    c.same(by(&[0x14, 1, 0x82, 0, 0x10], 0), broken(PADDED, 5, 1));
    c.same(by(&[0x11, 0x80, 0, 0x10], 0), broken(PADDED, 4, 1));
    c.same(by(&[0x15, 0xfe, 0x14, 4, 5, 0x10], 0), broken(TOMBSTONE, 6, 2));
    c.same(by(&[0x16, 0x20, 0x10, 0x10], 0), broken(BACKWARD, 4, 1));
    c.same(by(&[4, 0x81, 0, 2], 0), broken(Error::UnknownRangeListsEntry(4), 4, 0));
    c.same(
        by(&[0x11, 0, 0x16, 5, 5, 0x17, 5, 1, 0x99], 0),
        vec![
            (Err(EOF), 2, 1),
            (is(5, 6), 8, 3),
            (Err(Error::UnknownRangeListsEntry(0x99)), 9, 3),
            (end, 9, 3),
            (end, 9, 3),
        ],
    );
    // Marks, and the other calls on the same walk.
    let list = [0x14, 1, 2, 0x14, 0x81, 0, 2, 0x14, 2, 1, 0x10];
    let lists = range_lists(&list, Little).with_kinds(&kinds);
    let walk = lists.ranges(RangeListsOffset(0), one, 0x10, &none, base).unwrap();
    let mut walk = Marked::new(walk);
    let padded = (Err(PADDED), 11, 2);
    c.same(next_range_in_profile(&mut walk), (is(0x11, 0x12), 3, 1));
    c.same((walk.set_mark(5), next_range_in_profile(&mut walk)), (Ok(()), padded));
    c.same((walk.return_to(5), next_range_in_profile(&mut walk)), (Ok(()), padded));
    c.same((walk.return_to(5), next_range(&mut walk)), (Ok(()), (is(0x11, 0x12), 7, 2)));
    c.same(next_range_in_profile(&mut walk), (Err(BACKWARD), 11, 3));
    // Bare pairs have no codes.
    for kinds in [kinds_from_10(), supplier_kinds(), loaded(&table_with(&[(0xff, 0)]))] {
        let lists = range_lists(&[3, 1, 0, 0], Little).with_kinds(&kinds);
        let mut walk = lists.ranges(RangeListsOffset(0), encoding(4, 1), 0, &none, base).unwrap();
        c.same(steps(|| next_range_in_profile(&mut walk)), broken(BACKWARD, 4, 1));
    }
    let supplier = supplier_kinds();
    any_lists(c, 600, |lists| {
        let (list, at) = lists.list(&RANGE_OPERANDS, lists.encoding.version >= 5);
        let Some(behind) = recoded(&list[at..], lists.encoding) else { return };
        let list = join(&[&list[..at], &behind]);
        lists.profile_of_ranges(range_lists(&list, lists.endian).with_kinds(&supplier), at);
    });
}

fn range_next_raw_by(c: &mut Checks) {
    use RawRngListEntry::*;
    let (kinds, one) = (kinds_from_10(), encoding(5, 1));
    let list = [
        0x11, 0x89, 0, 0x14, 4, 5, 0x14, 0x84, 0, 5, 0x15, 0x33, 0x16, 2, 3, 0x17, 1, 0x82, 0,
        0x10, 0x14,
    ];
    let noted = [
        (BaseAddressx { addr: DebugAddrIndex(9) }, true, 3),
        (OffsetPair { begin: 4, end: 5 }, false, 6),
        (OffsetPair { begin: 4, end: 5 }, true, 10),
        (BaseAddress { addr: 0x33 }, false, 12),
        (StartEnd { begin: 2, end: 3 }, false, 15),
        (StartLength { begin: 1, length: 2 }, true, 19),
    ];
    let expected: Vec<Step<Noted<RawRngListEntry>>> = noted
        .into_iter()
        .zip(1..)
        .map(|((entry, padded, place), n)| (Ok(Some(Noted { entry, padded })), place, n))
        .chain([(Ok(None), 21, 7), (Ok(None), 21, 7)])
        .collect();
    let lists = range_lists(&list, Little).with_kinds(&kinds);
    let mut walk = lists.raw_ranges(RangeListsOffset(0), one).unwrap();
    c.same(steps(|| (walk.next_noted(), walk.place(), walk.entries())), expected.clone());
    let table = DebugAddr::default();
    let open = || lists.ranges(RangeListsOffset(0), one, 0, &table, DebugAddrBase(0)).unwrap();
    let mut walk = open();
    c.same(steps(|| (walk.next_raw_noted(), walk.place(), walk.entries())), expected);
    c.same(
        lists.raw_ranges(RangeListsOffset(0), one).unwrap().collect::<Vec<_>>(),
        noted.map(|(entry, ..)| Ok(entry)).to_vec(),
    );
    // What they come to, handed back as they are; the first is refused by the table that isn't there.
    let mut walk = open();
    let converted: Vec<_> =
        std::iter::from_fn(|| walk.next_raw().ok()?.map(|raw| walk.convert_raw(raw))).collect();
    let ranges = [Some(at(4, 5)), Some(at(4, 5)), None, Some(at(2, 3)), Some(at(1, 3))];
    c.same(converted, join_results(Err(EOF), &ranges));
    // A code without a kind.
    for code in [0, 7, 0x12, 0xff] {
        let bytes = [code, 1, 2];
        let lists = range_lists(&bytes, Little).with_kinds(&kinds);
        let mut walk = lists.raw_ranges(RangeListsOffset(0), one).unwrap();
        let refused = Err(Error::UnknownRangeListsEntry(code.into()));
        c.same((walk.next(), walk.place(), walk.entries()), (refused, 3, 0));
        c.same((walk.next_noted(), walk.place(), walk.entries()), (Ok(None), 3, 0));
    }
}

/// A refusal, and then answers.
fn join_results<T: Copy>(first: Result<T>, then: &[T]) -> Vec<Result<T>> {
    std::iter::once(first).chain(then.iter().map(|item| Ok(*item))).collect()
}

/// The ranges that touch, and a list with code 99, both by the codes from 10 on.
const TOUCHING_FROM_10: &[u8] = &[0x17, 0x20, 0, 0, 0, 0x10, 0x17, 0x10, 0, 0, 0, 0x10, 0x10];
const ENDS_IN_99: &[u8] = &[0x17, 0x20, 0, 0, 0, 0x10, 0x99, 0x10];
const NO_CODE_99: Error = Error::UnknownRangeListsEntry(0x99);
const NO_CODE_7: Error = Error::UnknownRangeListsEntry(7);

fn range_lookup_by(c: &mut Checks) {
    let kinds = kinds_from_10();
    let lookup = |bytes: &[u8], size, offset, address| {
        let (lists, table) = (range_lists(bytes, Little).with_kinds(&kinds), table_of(4));
        let (offset, encoding) = (RangeListsOffset(offset), encoding(5, size));
        lists.lookup(offset, encoding, 0x40, &table, DebugAddrBase(8), address)
    };
    let list = [0x17, 0x10, 0, 0, 0, 8, 0x14, 1, 5, 0x99, 0x10];
    c.same(lookup(&list, 4, 0, 0x12), Ok(Some(at(0x10, 0x18))));
    c.same(lookup(&list, 4, 0, 0x44), Ok(Some(at(0x41, 0x45))));
    c.same(lookup(&list, 4, 6, 0x12), Err(NO_CODE_99));
    c.same(lookup(&list, 4, 10, 0x12), Ok(None));
    c.same(lookup(&list, 4, 12, 0x12), Err(EOF));
    c.same(lookup(&list, 7, 12, 0x12), Err(Error::UnsupportedAddressSize(7)));
    c.same(lookup(&[7, 0x10, 0, 0, 0, 8, 0], 4, 0, 0x12), Err(NO_CODE_7));
}

fn range_lookups_by(c: &mut Checks) {
    let kinds = kinds_from_10();
    let look = |bytes: &[u8], size, offset, addresses: &[u64]| {
        let (lists, table) = (range_lists(bytes, Little).with_kinds(&kinds), table_of(4));
        let (offset, encoding) = (RangeListsOffset(offset), encoding(5, size));
        lists.lookups(offset, encoding, 0x40, &table, DebugAddrBase(8), addresses)
    };
    let list = [0x17, 0x10, 0, 0, 0, 8, 0x14, 1, 5, 0x99, 0x10];
    let (first, second) = (Ok(Some(at(0x10, 0x18))), Ok(Some(at(0x41, 0x45))));
    let three = [first, Err(NO_CODE_99), second];
    c.same(look(&list, 4, 0, &[0x12, 0x18, 0x44]), several(&three, 2));
    c.same(
        look(&list, 4, 0, &[0x12, 0x12, 0x44, 0x44]),
        several(&[first, first, second, second], 2),
    );
    c.same(look(&list, 4, 0, &[0x12]), several(&[first], 1));
    c.same(look(&list, 4, 0, &[0x10; 64]), several(&[first; 64], 1));
    c.same(look(&list, 4, 10, &[0x12, 0x44]), several(&[Ok(None); 2], 1));
    c.same(look(&list, 4, 11, &[0x12, 0x44]), several(&[Ok(None); 2], 0));
    c.same(look(&list, 4, 12, &[0x12, 0x44]), several(&[Err(EOF); 2], 0));
    c.same(look(&list, 4, 12, &[]), several(&[], 0));
    c.same(look(&[7, 0x10, 0, 0, 0, 8, 0], 4, 0, &[0x12]), several(&[Err(NO_CODE_7)], 0));
    c.same(look(&list, 7, 12, &[0x44, 0x12]), Err(Error::DescendingAddresses));
    c.same(look(&list, 7, 12, &[0x12; 65]), Err(Error::TooManyAddresses));
    let whole = join(&[&[0x17], &[0; 8], &[0xff; 9], &[1, 0x10]]);
    let len = whole.len() as u64;
    asking(c, len, |size, offset, addresses| look(&whole, size, offset, addresses));
    let (dwarf, supplier) = (KindTable::DWARF, supplier_kinds());
    any_lists(c, 50_000, |any| {
        let (list, at) = any.list(&RANGE_OPERANDS, any.encoding.version >= 5);
        let table = any.table();
        any.compare_ranges(range_lists(&list, any.endian).with_kinds(&dwarf), &table, at);
        let recoded = recoded(&list[at..], any.encoding).expect("9 is no code");
        any.compare_ranges(range_lists(&recoded, any.endian).with_kinds(&supplier), &table, 0);
    });
}

fn range_coverage_by(c: &mut Checks) {
    let kinds = kinds_from_10();
    let cover = |bytes: &[u8], size, offset| {
        let (lists, table) = (range_lists(bytes, Little).with_kinds(&kinds), table_of(4));
        let (offset, encoding) = (RangeListsOffset(offset), encoding(5, size));
        is(lists.coverage(offset, encoding, 0, &table, DebugAddrBase(8)))
    };
    c.same(cover(TOUCHING_FROM_10, 4, 0), Ok(vec![at(0x10, 0x30)]));
    c.same(cover(TOUCHING_FROM_10, 4, 12), Ok(vec![]));
    c.same(cover(ENDS_IN_99, 4, 0), Err(NO_CODE_99));
    c.same(cover(TOUCHING, 4, 0), Err(NO_CODE_7));
    c.same(cover(TOUCHING_FROM_10, 4, u64::MAX), Err(EOF));
    c.same(cover(TOUCHING_FROM_10, 5, u64::MAX), Err(Error::UnsupportedAddressSize(5)));
}

fn range_runs_by(c: &mut Checks) {
    let kinds = kinds_from_10();
    let runs = |bytes: &[u8], size, offset, b, e| {
        let (lists, table) = (range_lists(bytes, Little).with_kinds(&kinds), table_of(4));
        let (offset, encoding) = (RangeListsOffset(offset), encoding(5, size));
        let base = DebugAddrBase(8);
        put(b, e, |begins, ends| lists.runs(offset, encoding, 0, &table, base, begins, ends))
    };
    c.same(runs(TOUCHING_FROM_10, 4, 0, 1, 3), holding(1, 3, &[(0x10, 0x30)]));
    c.same(runs(TOUCHING_FROM_10, 4, 12, 0, 0), holding(0, 0, &[]));
    c.same(runs(TOUCHING_FROM_10, 4, 0, 0, 1), left(0, 1, Error::NoSpace));
    c.same(runs(TOUCHING_FROM_10, 4, 0, 1, 0), left(1, 0, Error::NoSpace));
    c.same(runs(ENDS_IN_99, 4, 0, 0, 2), left(0, 2, NO_CODE_99));
    c.same(runs(TOUCHING, 4, 0, 2, 2), left(2, 2, NO_CODE_7));
    c.same(runs(TOUCHING, 4, u64::MAX, 2, 2), left(2, 2, EOF));
    c.same(runs(TOUCHING, 9, u64::MAX, 0, 0), left(0, 0, Error::UnsupportedAddressSize(9)));
}

fn range_canonical_by(c: &mut Checks) {
    let kinds = kinds_from_10();
    let write = |bytes: &[u8], size, offset, len| {
        let (lists, table) = (range_lists(bytes, Little).with_kinds(&kinds), table_of(4));
        let (offset, encoding) = (RangeListsOffset(offset), encoding(5, size));
        into(len, |o| {
            let list = lists.canonical(offset, encoding, 0, &table, DebugAddrBase(8), o);
            list.map(|list| list.bytes().len())
        })
    };
    let expected = (Ok(11), join(&[TOUCHING_CANONICAL, &[0xee]]));
    c.same(write(TOUCHING_FROM_10, 4, 0, 12), expected);
    c.same(write(TOUCHING_FROM_10, 4, 0, 10), untouched(10, Error::NoSpace));
    c.same(write(&[0x10], 4, 0, 1), (Ok(1), vec![0]));
    c.same(write(ENDS_IN_99, 4, 0, 0), untouched(0, NO_CODE_99));
    c.same(write(TOUCHING, 4, 0, 16), untouched(16, NO_CODE_7));
    c.same(write(TOUCHING, 4, u64::MAX, 16), untouched(16, EOF));
    c.same(write(TOUCHING, 0, u64::MAX, 16), untouched(16, Error::UnsupportedAddressSize(0)));
    // It has DWARF's own numbers: by the list's table it is none.
    let back = CanonicalList::new(TOUCHING_CANONICAL);
    c.same((back.is_canonical(), is(back.coverage())), (true, Ok(vec![at(0x10, 0x30)])));
    c.same(write(TOUCHING_CANONICAL, 8, 0, 16), untouched(16, NO_CODE_7));
}

/// All that the calls over a list answer.
fn answers<K: Kinds>(lists: RangeLists<'_, K>, encoding: Encoding) -> Vec<String> {
    let (at_0, table, base) =
        (RangeListsOffset(0), table_of(encoding.address_size), DebugAddrBase(8));
    let open = || lists.ranges(at_0, encoding, 0x10, &table, base).unwrap();
    let (mut walk, mut profile, mut noted) = (open(), open(), open());
    let mut raw = lists.raw_ranges(at_0, encoding).unwrap();
    let mut all = vec![
        words(&steps(|| next_range(&mut walk))),
        words(&steps(|| next_range_in_profile(&mut profile))),
        words(&steps(|| (noted.next_raw_noted(), noted.place(), noted.entries()))),
        words(&steps(|| (raw.next_noted(), raw.place(), raw.entries()))),
        words(&open().collect::<Vec<_>>()),
        words(&is(lists.coverage(at_0, encoding, 0x10, &table, base))),
        words(&put(9, 9, |b, e| lists.runs(at_0, encoding, 0x10, &table, base, b, e))),
        words(&into(99, |o| {
            lists.canonical(at_0, encoding, 0x10, &table, base, o).map(|list| list.bytes().len())
        })),
    ];
    let addresses = [0, 3, 0x10, 0x11, 0x20, 0xff];
    for address in addresses {
        all.push(words(&lists.lookup(at_0, encoding, 0x10, &table, base, address)));
    }
    all.push(words(&lists.lookups(at_0, encoding, 0x10, &table, base, &addresses)));
    all
}

/// Lists by DWARF's own numbers, and by a supplier's with the supplier's codes in place of the kinds,
/// answer as without a table; offsets of the table of lists have no kinds.
fn kind_tables(c: &mut Checks) {
    let (dwarf, supplier, mut byte) = (KindTable::DWARF, supplier_kinds(), byte_source());
    let mut lists: Vec<Vec<u8>> =
        [RANGE_KINDS, BASE_AND_PAIRS, THREE, TOUCHING, TOUCHING_3, TABLE, LISTS, EIGHT]
            .map(<[u8]>::to_vec)
            .to_vec();
    lists.extend((0..300).map(|_| (0..40).map(|_| byte() % 10).collect()));
    lists.extend((0..100).map(|_| (0..40).map(|_| byte()).collect()));
    let (mut compared, mut unlike) = (0, 0);
    for list in &lists {
        for (version, size) in [4, 5, 6].into_iter().flat_map(|v| [1, 2, 3, 4, 8].map(|s| (v, s))) {
            let encoding = encoding(version, size);
            let plain = answers(range_lists(list, Little), encoding);
            let by_dwarf = range_lists(list, Little).with_kinds(&dwarf);
            c.same(answers(by_dwarf, encoding), plain.clone());
            let Some(recoded) = recoded(list, encoding) else { continue };
            let by_supplier = range_lists(&recoded, Little).with_kinds(&supplier);
            c.same(answers(by_supplier, encoding), plain.clone());
            // The last table that is given counts.
            c.same(
                answers(by_supplier.with_kinds(&dwarf).with_kinds(&supplier), encoding),
                plain.clone(),
            );
            compared += 1;
            unlike += usize::from(answers(range_lists(&recoded, Little), encoding) != plain);
        }
    }
    // Of the lists of small bytes four in five begin with a kind, and are others without their table.
    c.same((compared > 5000, unlike > 2000), (true, true));
    let by = range_lists(LISTS, Little).with_kinds(&supplier);
    let get =
        |index| by.get_offset(encoding(5, 4), DebugRngListsBase(12), DebugRngListsIndex(index));
    c.same((get(0), get(1)), (Ok(RangeListsOffset(20)), Ok(RangeListsOffset(22))));
    c.same((by.debug_ranges().reader().len(), by.debug_rnglists().reader().len()), (22, 22));
    c.same(RangeLists::default().debug_rnglists().reader().len(), 0);
}

// Beside the calls

/// Bytes in no order, the same in every run.
fn byte_source() -> impl FnMut() -> u8 {
    let mut seed = 1u64;
    move || {
        seed = seed.wrapping_mul(6364136223846793005).wrapping_add(1442695040888963407);
        (seed >> 56) as u8
    }
}

/// Calls, settings and returns in any order, beside a copy of the walk for each mark.
fn beside_copies<W: ListWalk + Clone + Debug>(
    c: &mut Checks,
    byte: &mut impl FnMut() -> u8,
    opened: W,
    call: impl Fn(&mut W, u8) -> String,
) {
    for _ in 0..20 {
        let (mut plain, mut copies) = (opened.clone(), vec![None; 8]);
        let mut walk = Marked::new(opened.clone());
        for _ in 0..40 {
            // Of ten numbers two are no mark's.
            let (choice, number) = (byte(), byte() % 10);
            let copy = copies.get_mut(usize::from(number));
            match choice % 8 {
                0 | 1 => {
                    let expected = copy.map(|copy| *copy = Some(plain.clone()));
                    c.same(walk.set_mark(number.into()), expected.ok_or(NO_MARK));
                }
                2 | 3 => {
                    let expected = copy.and_then(|copy| copy.clone()).map(|copy| plain = copy);
                    c.same(walk.return_to(number.into()), expected.ok_or(NO_MARK));
                }
                _ => c.same(call(&mut walk, choice), call(&mut plain, choice)),
            }
            c.same(words(&*walk), words(&plain));
        }
    }
}

fn marked(c: &mut Checks) {
    let [first, second, third] = three_ranges();
    let mut walk = marked_ranges(THREE, encoding(5, 4), 0);
    c.same((walk.next(), walk.set_mark(0)), (first, Ok(())));
    let rest = vec![second.transpose().unwrap(), third.transpose().unwrap()];
    c.same((walk.by_ref().collect::<Vec<_>>(), walk.return_to(0)), (rest.clone(), Ok(())));
    c.same(walk.into_walk().collect::<Vec<_>>(), rest);

    let mut byte = byte_source();
    let (four, five, one) = (encoding(4, 4), encoding(5, 4), encoding(5, 1));
    fn in_ranges<K: Kinds>(walk: &mut RngListIter<'_, K>, choice: u8) -> String {
        match choice % 8 {
            4 => words(&walk.next_raw()),
            5 => words(&walk.convert_raw(RawRngListEntry::BaseAddress { addr: choice.into() })),
            6 => words(&walk.next_in_profile()),
            _ => words(&walk.next()),
        }
    }
    beside_copies(c, &mut byte, open_ranges(BASE_AND_PAIRS, five, 0), in_ranges);
    beside_copies(c, &mut byte, open_ranges(RANGE_KINDS, one, 7), in_ranges);
    let raw = range_lists(RANGE_KINDS, Little).raw_ranges(RangeListsOffset(0), one).unwrap();
    beside_copies(c, &mut byte, raw, |walk, _| words(&walk.next()));
    let (kinds, at_0) = (supplier_kinds(), RangeListsOffset(0));
    let recoded = recoded(RANGE_KINDS, one).expect("a list of kinds");
    let lists = range_lists(&recoded, Little).with_kinds(&kinds);
    let walk = lists.ranges(at_0, one, 7, &table_of(1), DebugAddrBase(8)).unwrap();
    beside_copies(c, &mut byte, walk, in_ranges);
    let raw = lists.raw_ranges(at_0, one).unwrap();
    beside_copies(c, &mut byte, raw, |walk, _| words(&walk.next()));
    let in_locations = |walk: &mut LocListIter<'_>, choice: u8| match choice % 8 {
        4 => words(&walk.next_raw()),
        5 => words(&walk.convert_raw(RawLocListEntry::BaseAddress { addr: choice.into() })),
        6 => words(&walk.next_in_profile()),
        _ => words(&walk.next()),
    };
    beside_copies(c, &mut byte, open_locations(LOCATION_KINDS, one, false, 7), in_locations);
    beside_copies(c, &mut byte, open_locations(SPLIT_BASE_AND_PAIRS, four, true, 0), in_locations);
    let (plain, at_0) = (location_lists(LOCATION_KINDS, Little), LocationListsOffset(0));
    let raw = plain.raw_locations(at_0, one).unwrap();
    beside_copies(c, &mut byte, raw, |walk, _| words(&walk.next()));
    let split = location_lists(SPLIT_BASE_AND_PAIRS, Little);
    let raw = split.raw_locations_dwo(at_0, four).unwrap();
    beside_copies(c, &mut byte, raw, |walk, _| words(&walk.next()));
}

/// Every call over a list and a table in two orders says so; a table without bytes has no order.
fn byte_orders(c: &mut Checks) {
    let bytes = [3, 0, 8, 0, 0];
    let mixed = Error::MixedByteOrders;
    for (endian, other, own) in [(Little, Big, TABLE), (Big, Little, BIG_TABLE)] {
        let (ranges, locations) = (range_lists(&bytes, endian), location_lists(&bytes, endian));
        let (at_0, base, main) = (RangeListsOffset(0), DebugAddrBase(8), DwarfFileType::Main);
        let (l_at_0, five, mut output) = (LocationListsOffset(0), encoding(5, 4), [0xee; 16]);
        let table = DebugAddr::new(TABLE, other);
        c.same(ranges.ranges(at_0, five, 0, &table, base).map(|_| ()), Err(mixed));
        c.same(ranges.lookup(at_0, five, 0, &table, base, 0), Err(mixed));
        c.same(ranges.lookups(at_0, five, 0, &table, base, &[0]), Err(mixed));
        c.same(ranges.coverage(at_0, five, 0, &table, base), Err(mixed));
        c.same(put(1, 1, |b, e| ranges.runs(at_0, five, 0, &table, base, b, e)), left(1, 1, mixed));
        c.same(ranges.canonical(at_0, five, 0, &table, base, &mut output), Err(mixed));
        let kinds = KindTable::DWARF;
        let by = ranges.with_kinds(&kinds);
        c.same(by.ranges(at_0, five, 0, &table, base).map(|_| ()), Err(mixed));
        c.same(by.lookup(at_0, five, 0, &table, base, 0), Err(mixed));
        c.same(by.lookups(at_0, five, 0, &table, base, &[0]), Err(mixed));
        c.same(by.coverage(at_0, five, 0, &table, base), Err(mixed));
        c.same(put(1, 1, |b, e| by.runs(at_0, five, 0, &table, base, b, e)), left(1, 1, mixed));
        c.same(by.canonical(at_0, five, 0, &table, base, &mut output), Err(mixed));
        c.same(locations.locations(l_at_0, five, 0, &table, base).map(|_| ()), Err(mixed));
        c.same(locations.locations_dwo(l_at_0, five, 0, &table, base).map(|_| ()), Err(mixed));
        c.same(locations.lookup(l_at_0, five, main, 0, &table, base, 0), Err(mixed));
        c.same(locations.lookups(l_at_0, five, main, 0, &table, base, &[0]), Err(mixed));
        c.same(locations.coverage(l_at_0, five, main, 0, &table, base), Err(mixed));
        c.same(
            put(1, 1, |b, e| locations.runs(l_at_0, five, main, 0, &table, base, b, e)),
            left(1, 1, mixed),
        );
        c.same(locations.canonical(l_at_0, five, main, 0, &table, base, &mut output), Err(mixed));
        c.same(output, [0xee; 16]);
        // Before every refusal of the library.
        let nowhere = RangeListsOffset(u64::MAX);
        c.same(ranges.lookup(nowhere, encoding(5, 5), 0, &table, base, 0), Err(mixed));
        c.same(ranges.lookups(nowhere, encoding(5, 5), 0, &table, base, &[]), Err(mixed));
        c.same(ranges.lookups(at_0, five, 0, &table, base, &[0; 65]), Err(mixed));
        let found = Ok(Some(at(0x10, 0x18)));
        c.same(ranges.lookup(at_0, five, 0, &DebugAddr::new(own, endian), base, 0x10), found);
        let empty = DebugAddr::new(&[], other);
        c.same(ranges.lookup(at_0, five, 0, &empty, DebugAddrBase(0), 0), Err(EOF));
        c.same(ranges.coverage(RangeListsOffset(4), five, 0, &empty, base).map(|x| x.len()), Ok(0));
    }
    // Each of two sections has its own order; that of the section that is read counts.
    let lists = RangeLists::new(
        DebugRanges::new(&[1, 2, 0, 0], Big),
        DebugRngLists::new(&[3, 0, 8, 0], Little),
    );
    let (at_0, table, base) =
        (RangeListsOffset(0), DebugAddr::new(TABLE, Little), DebugAddrBase(8));
    let looked = |version, size, address| {
        lists.lookup(at_0, encoding(version, size), 0, &table, base, address)
    };
    c.same(looked(5, 4, 0x10), Ok(Some(at(0x10, 0x18))));
    c.same(looked(4, 1, 1), Err(mixed));
}

fn iterators(c: &mut Checks) {
    let raw: Vec<_> = range_lists(RANGE_KINDS, Little)
        .raw_ranges(RangeListsOffset(0), encoding(5, 1))
        .unwrap()
        .collect();
    c.same(raw, range_kinds().into_iter().map(Ok).collect());
    // Past a failed lookup there are further items, past a kind that isn't there none.
    let walk = open_ranges(&[2, 0, 2, 3, 0, 8, 8, 3, 0, 8], encoding(5, 4), 0);
    let unknown = Err(Error::UnknownRangeListsEntry(8));
    c.same(walk.collect::<Vec<_>>(), vec![Err(EOF), Ok(at(0x10, 0x18)), unknown]);
    let walk = open_ranges(&[2, 0, 2, 3, 0, 8, 0], encoding(5, 4), 0);
    c.same(walk.collect::<Result<Vec<_>>>(), Err(EOF));
    let walk = open_locations(&[3, 2, 8, 0, 3, 0, 8, 1, 0x50, 9], encoding(5, 4), false, 0);
    let all: Vec<_> = walk.map(|item| item.map(told)).collect();
    let unknown = Err(Error::UnknownLocListsEntry(9));
    c.same(all, vec![Err(EOF), Ok((at(0x10, 0x18), &[0x50][..], 8)), unknown]);
    let lists = location_lists(LOCATION_KINDS, Little);
    let raw = lists.raw_locations(LocationListsOffset(0), encoding(5, 1)).unwrap();
    c.same(raw.filter_map(Result::ok).count(), 8);
    let addresses: Vec<_> = DebugAddr::new(TABLE, Little)
        .headers()
        .filter_map(Result::ok)
        .flat_map(|header| header.entries())
        .collect();
    c.same(addresses, vec![Ok(0x10), Ok(0x20)]);
    let cut = join(&[TABLE, &TABLE[..15]]);
    let headers = DebugAddr::new(&cut, Little).headers().map(|header| header.map(|_| ()));
    c.same(headers.collect::<Vec<_>>(), vec![Ok(()), Err(EOF)]);
}

fn in_profile(c: &mut Checks) {
    // Past a failed lookup there are further items, past one of the three none.
    let list = [2, 0, 2, 3, 0, 8, 2, 1, 0, 3, 0, 8];
    let mut walk = open_ranges(&list, encoding(5, 4), 0);
    let all = vec![Err(EOF), Ok(at(0x10, 0x18)), Err(BACKWARD)];
    c.same(walk.clone().in_profile().collect::<Vec<_>>(), all);
    // The walk goes with the items, and goes on by itself.
    c.same((walk.in_profile().take(2).count(), walk.place(), walk.entries()), (2, 6, 2));
    c.same(walk.clone().collect::<Vec<_>>(), vec![Ok(at(0x10, 0x18))]);
    c.same(walk.in_profile().collect::<Result<Vec<_>>>(), Err(BACKWARD));
    c.same((walk.in_profile().next(), walk.place(), walk.entries()), (None, 12, 3));
    let list = [4, 1, 2, 1, 0x50, 5, 0x81, 0, 0x50];
    let mut walk = Marked::new(open_locations(&list, encoding(5, 4), false, 0));
    c.same(walk.set_mark(0), Ok(()));
    let both = vec![Ok((at(1, 2), &[0x50][..], 4)), Err(PADDED)];
    for _ in 0..2 {
        let items = walk.in_profile().map(|item| item.map(told)).collect::<Vec<_>>();
        c.same((items, walk.return_to(0)), (both.clone(), Ok(())));
    }
    let kinds = KindTable::DWARF;
    let lists = range_lists(&[6, 2, 1], Little).with_kinds(&kinds);
    let (none, base) = (DebugAddr::default(), DebugAddrBase(0));
    let mut walk = lists.ranges(RangeListsOffset(0), encoding(5, 1), 0, &none, base).unwrap();
    c.same(walk.in_profile().collect::<Vec<_>>(), vec![Err(BACKWARD)]);
}

/// Whatever its bytes and its encoding, a walk is refused when it is opened or has an end, which
/// stays: no more items than bytes, since each call reads one at least.
fn ends(c: &mut Checks) {
    let mut byte = byte_source();
    let table = DebugAddr::new(TABLE, Little);
    let (base, at_0, l_at_0) = (DebugAddrBase(8), RangeListsOffset(0), LocationListsOffset(0));
    let kinds = supplier_kinds();
    for size in 0..=255 {
        // Few kinds are above 8, so that many entries are met.
        let bytes: Vec<u8> =
            (0..200).map(|_| if byte() < 250 { byte() % 9 } else { byte() }).collect();
        let (ranges, locations) = (range_lists(&bytes, Little), location_lists(&bytes, Little));
        let by = ranges.with_kinds(&kinds);
        for version in [0, 4, 5, 65535] {
            let encoding = encoding(version, size);
            let walks = [
                ranges.ranges(at_0, encoding, 0, &table, base).map(items),
                ranges.ranges(at_0, encoding, 0, &table, base).map(|mut w| items(w.in_profile())),
                ranges.raw_ranges(at_0, encoding).map(items),
                by.ranges(at_0, encoding, 0, &table, base).map(items),
                by.ranges(at_0, encoding, 0, &table, base).map(|mut w| items(w.in_profile())),
                by.raw_ranges(at_0, encoding).map(items),
                locations.locations(l_at_0, encoding, 0, &table, base).map(items),
                locations.locations_dwo(l_at_0, encoding, 0, &table, base).map(items),
                locations
                    .locations_dwo(l_at_0, encoding, 0, &table, base)
                    .map(|mut walk| items(walk.in_profile())),
                locations.raw_locations(l_at_0, encoding).map(items),
                locations.raw_locations_dwo(l_at_0, encoding).map(items),
            ];
            for items in walks {
                if [1, 2, 3, 4, 8].contains(&size) {
                    c.same(items.is_ok_and(|items| items <= bytes.len()), true);
                } else {
                    c.same(items, Err(Error::UnsupportedAddressSize(size.into())));
                }
            }
        }
    }
}

/// How many items a walk has; more than there can be where its end does not stay.
fn items(mut walk: impl Iterator) -> usize {
    let items = walk.by_ref().take(1000).count();
    if walk.next().is_none() { items } else { usize::MAX }
}
