//! The port's side: one call of the C interface for each entry, with the walk
//! lent, or one for the whole task. A walk is a function of its own, so that
//! its loop is nothing but the call.

// The declarations of the wrapper.
#[allow(dead_code)]
#[path = "../bindings/yeltzarun/ffi.rs"]
#[rustfmt::skip]
mod ffi;

use crate::bench_rows::{Kind, Row};
use crate::bench_sets::{Coverage, Runs, sum_of_bytes};
use ffi::*;
pub use ffi::{Encoding, Found, LIMIT};
use std::hint::black_box;

#[cold]
fn refused(refusal: u32) -> ! {
    panic!("the port refused with {refusal}")
}

/// Section and table, each a pointer and a length.
#[inline(always)]
fn lent(row: &Row) -> (Ptr, usize, Ptr, usize) {
    (row.section.as_ptr(), row.section.len(), row.table.as_ptr(), row.table.len())
}

/// How a row's lists are written, made before all passes: a word in memory, as
/// the wrapper has it. A caller that makes it anew for each call stores it in
/// pieces, and the load of the word waits for them.
#[inline(never)]
pub fn encoding(row: &Row) -> Encoding {
    Encoding {
        version: row.version,
        address_size: row.address_size,
        dwarf64: row.dwarf64,
        big_endian: row.big_endian.into(),
    }
}

#[inline(always)]
fn file_type(row: &Row) -> u32 {
    if row.kind == Kind::SplitLocations { FILE_DWO } else { FILE_MAIN }
}

#[inline(always)]
fn open_ranges(row: &Row, encoding: Encoding, offset: u64, walk: &mut Walk) {
    let (s, n, ..) = lent(row);
    let opened = unsafe { yz_range_open(s, n, encoding, offset, row.base_address, walk) };
    if opened.result != DONE {
        refused(opened.refusal);
    }
}

#[inline(always)]
fn open_locations(row: &Row, encoding: Encoding, offset: u64, walk: &mut Walk) {
    let (s, n, ..) = lent(row);
    let (file, base) = (file_type(row), row.base_address);
    let opened = unsafe { yz_location_open(s, n, encoding, file, offset, base, walk) };
    if opened.result != DONE {
        refused(opened.refusal);
    }
}

#[inline(never)]
pub fn walk_ranges(row: &Row, passes: u64) -> u64 {
    let encoding = encoding(row);
    repeat!(passes, {
        let row = black_box(row);
        walk_ranges_once(row, black_box(&encoding), row.offset)
    })
}

#[inline(never)]
pub fn walk_ranges_once(row: &Row, encoding: &Encoding, offset: u64) -> u64 {
    walk_ranges_with(row, encoding, offset, Call::Next, |_| {})
}

/// Which call gives the next range.
#[derive(Clone, Copy)]
enum Call<'a> {
    Next,
    By(&'a [u8]),
    InProfile,
    InProfileBy(&'a [u8]),
}

/// Behind each entry something is done with the walk.
#[inline(always)]
fn walk_ranges_with(
    row: &Row,
    encoding: &Encoding,
    offset: u64,
    call: Call<'_>,
    mut behind: impl FnMut(&mut Walk),
) -> u64 {
    let ((s, n, t, m), encoding, table_base) = (lent(row), *encoding, row.table_base);
    let (mut walk, mut sum) = (Walk::default(), 0u64);
    open_ranges(row, encoding, offset, &mut walk);
    loop {
        let walk_in = &mut walk;
        let next = unsafe {
            match call {
                Call::Next => yz_range_next(s, n, t, m, table_base, encoding, walk_in),
                Call::By(kinds) => {
                    let (k, l) = (kinds.as_ptr(), kinds.len());
                    yz_range_next_by(s, n, t, m, table_base, encoding, k, l, walk_in)
                }
                Call::InProfile => {
                    yz_range_next_in_profile(s, n, t, m, table_base, encoding, walk_in)
                }
                Call::InProfileBy(kinds) => {
                    let (k, l) = (kinds.as_ptr(), kinds.len());
                    yz_range_next_in_profile_by(s, n, t, m, table_base, encoding, k, l, walk_in)
                }
            }
        };
        match next.result {
            DONE => sum = sum.wrapping_add(next.item.begin) ^ next.item.end,
            END => return sum,
            _ => refused(next.refusal),
        }
        behind(&mut walk);
    }
}

#[inline(never)]
pub fn walk_ranges_by(row: &Row, kinds: &[u8], passes: u64) -> u64 {
    let encoding = encoding(row);
    repeat!(passes, walk_ranges_by_once(black_box(row), black_box(&encoding), black_box(kinds)))
}

#[inline(never)]
fn walk_ranges_by_once(row: &Row, encoding: &Encoding, kinds: &[u8]) -> u64 {
    walk_ranges_with(row, encoding, row.offset, Call::By(kinds), |_| {})
}

#[inline(never)]
pub fn profile_ranges(row: &Row, passes: u64) -> u64 {
    let encoding = encoding(row);
    repeat!(passes, profile_ranges_once(black_box(row), black_box(&encoding)))
}

#[inline(never)]
fn profile_ranges_once(row: &Row, encoding: &Encoding) -> u64 {
    walk_ranges_with(row, encoding, row.offset, Call::InProfile, |_| {})
}

#[inline(never)]
pub fn profile_ranges_by(row: &Row, kinds: &[u8], passes: u64) -> u64 {
    let encoding = encoding(row);
    repeat!(passes, profile_ranges_by_once(black_box(row), black_box(&encoding), black_box(kinds)))
}

#[inline(never)]
fn profile_ranges_by_once(row: &Row, encoding: &Encoding, kinds: &[u8]) -> u64 {
    walk_ranges_with(row, encoding, row.offset, Call::InProfileBy(kinds), |_| {})
}

#[inline(never)]
pub fn walk_locations(row: &Row, passes: u64) -> u64 {
    let encoding = encoding(row);
    repeat!(passes, {
        let row = black_box(row);
        walk_locations_once(row, black_box(&encoding), row.offset)
    })
}

#[inline(never)]
pub fn walk_locations_once(row: &Row, encoding: &Encoding, offset: u64) -> u64 {
    walk_locations_with(row, encoding, offset, false, |_| {})
}

#[inline(never)]
pub fn profile_locations(row: &Row, passes: u64) -> u64 {
    let encoding = encoding(row);
    repeat!(passes, profile_locations_once(black_box(row), black_box(&encoding)))
}

#[inline(never)]
fn profile_locations_once(row: &Row, encoding: &Encoding) -> u64 {
    walk_locations_with(row, encoding, row.offset, true, |_| {})
}

#[inline(always)]
fn walk_locations_with(
    row: &Row,
    encoding: &Encoding,
    offset: u64,
    in_profile: bool,
    mut behind: impl FnMut(&mut Walk),
) -> u64 {
    let ((s, n, t, m), encoding, table_base) = (lent(row), *encoding, row.table_base);
    let (mut walk, mut sum) = (Walk::default(), 0u64);
    open_locations(row, encoding, offset, &mut walk);
    let call = if in_profile { yz_location_next_in_profile } else { yz_location_next };
    loop {
        let next = unsafe { call(s, n, t, m, table_base, encoding, &mut walk) };
        match next.result {
            DONE => sum = added(sum.wrapping_add(next.item.begin), next.item),
            END => return sum,
            _ => refused(next.refusal),
        }
        behind(&mut walk);
    }
}

/// What a raw entry adds to a sum: its kind and its numbers.
#[inline(always)]
pub fn raw_sum(sum: u64, kind: u64, first: u64, second: u64) -> u64 {
    (sum.rotate_left(1) ^ kind).wrapping_add(first) ^ second
}

#[inline(never)]
pub fn raw_ranges(row: &Row, passes: u64) -> u64 {
    let encoding = encoding(row);
    repeat!(passes, raw_ranges_once(black_box(row), black_box(&encoding)))
}

#[inline(never)]
fn raw_ranges_once(row: &Row, encoding: &Encoding) -> u64 {
    raw_ranges_with(row, encoding, None)
}

#[inline(never)]
pub fn raw_ranges_by(row: &Row, kinds: &[u8], passes: u64) -> u64 {
    let encoding = encoding(row);
    repeat!(passes, raw_ranges_by_once(black_box(row), black_box(&encoding), black_box(kinds)))
}

#[inline(never)]
fn raw_ranges_by_once(row: &Row, encoding: &Encoding, kinds: &[u8]) -> u64 {
    raw_ranges_with(row, encoding, Some(kinds))
}

#[inline(always)]
fn raw_ranges_with(row: &Row, encoding: &Encoding, kinds: Option<&[u8]>) -> u64 {
    let ((s, n, ..), encoding) = (lent(row), *encoding);
    let (mut walk, mut sum) = (Walk::default(), 0u64);
    open_ranges(row, encoding, row.offset, &mut walk);
    loop {
        let next = match kinds.map(|kinds| (kinds.as_ptr(), kinds.len())) {
            None => unsafe { yz_range_next_raw(s, n, encoding, &mut walk) },
            Some((k, l)) => unsafe { yz_range_next_raw_by(s, n, encoding, k, l, &mut walk) },
        };
        let RangeEntry { kind, first, second } = next.item.entry;
        match next.result {
            DONE => sum = raw_sum(sum, kind, first, second),
            END => return sum,
            _ => refused(next.refusal),
        }
    }
}

#[inline(never)]
pub fn raw_locations(row: &Row, passes: u64) -> u64 {
    let encoding = encoding(row);
    repeat!(passes, raw_locations_once(black_box(row), black_box(&encoding)))
}

#[inline(never)]
fn raw_locations_once(row: &Row, encoding: &Encoding) -> u64 {
    let ((s, n, ..), encoding) = (lent(row), *encoding);
    let (mut walk, mut sum) = (Walk::default(), 0u64);
    open_locations(row, encoding, row.offset, &mut walk);
    loop {
        let next = unsafe { yz_location_next_raw(s, n, encoding, &mut walk) };
        let LocationEntry { kind, first, second, expression } = next.item.entry;
        match next.result {
            DONE => {
                sum = raw_sum(sum, kind, first, second);
                sum = sum.wrapping_add(expression.offset) ^ expression.length;
            }
            END => return sum,
            _ => refused(next.refusal),
        }
    }
}

#[inline(never)]
pub fn numbers(row: &Row, passes: u64) -> u64 {
    repeat!(passes, numbers_once(black_box(row)))
}

#[inline(never)]
fn numbers_once(row: &Row) -> u64 {
    let (s, n, ..) = lent(row);
    let (mut at, mut sum) = (0, 0u64);
    while at < n {
        let read = unsafe { yz_uleb128(s, n, at) };
        if read.result != DONE {
            refused(read.refusal);
        }
        sum = sum.rotate_left(1) ^ read.item.number;
        at = read.item.next as usize;
    }
    sum
}

/// Sets a mark and returns to it, each time the next one.
#[inline(always)]
fn there_and_back(marks: &mut Marks, next: &mut u64, walk: &mut Walk) {
    let number = black_box(*next);
    *next = (number + 1) % 8;
    let set = yz_mark_set(number, walk, marks);
    if set.result != DONE {
        refused(set.refusal);
    }
    let back = yz_mark_return(number, marks, walk);
    if back.result != DONE {
        refused(back.refusal);
    }
}

#[inline(never)]
pub fn mark_ranges(row: &Row, passes: u64) -> u64 {
    let encoding = encoding(row);
    repeat!(passes, mark_ranges_once(black_box(row), black_box(&encoding)))
}

#[inline(never)]
fn mark_ranges_once(row: &Row, encoding: &Encoding) -> u64 {
    let (mut marks, mut next) = (Marks::default(), 0);
    let behind = |walk: &mut Walk| there_and_back(&mut marks, &mut next, walk);
    walk_ranges_with(row, encoding, row.offset, Call::Next, behind)
}

#[inline(never)]
pub fn mark_locations(row: &Row, passes: u64) -> u64 {
    let encoding = encoding(row);
    repeat!(passes, mark_locations_once(black_box(row), black_box(&encoding)))
}

#[inline(never)]
fn mark_locations_once(row: &Row, encoding: &Encoding) -> u64 {
    let (mut marks, mut next) = (Marks::default(), 0);
    let behind = |walk: &mut Walk| there_and_back(&mut marks, &mut next, walk);
    walk_locations_with(row, encoding, row.offset, false, behind)
}

/// The sum of a location, behind its begin.
#[inline(always)]
fn added(sum: u64, found: Location) -> u64 {
    (sum ^ found.end).wrapping_add(found.expression.offset) ^ found.expression.length
}

#[inline(never)]
pub fn lookup_range(row: &Row, address: u64, passes: u64) -> u64 {
    let encoding = encoding(row);
    repeat!(passes, {
        let row = black_box(row);
        lookup_range_once(row, black_box(&encoding), row.offset, address)
    })
}

#[inline(always)]
pub fn lookup_range_once(row: &Row, encoding: &Encoding, offset: u64, address: u64) -> u64 {
    let ((s, n, t, m), encoding, table_base) = (lent(row), *encoding, row.table_base);
    let base = row.base_address;
    found_range(unsafe { yz_range_lookup(s, n, t, m, table_base, encoding, offset, base, address) })
}

#[inline(always)]
fn found_range(found: Answer<Range>) -> u64 {
    match found.result {
        DONE => found.item.begin ^ found.item.end,
        NOT_THERE => 0,
        _ => refused(found.refusal),
    }
}

#[inline(never)]
pub fn lookup_range_by(row: &Row, kinds: &[u8], address: u64, passes: u64) -> u64 {
    let encoding = encoding(row);
    repeat!(passes, {
        let (row, encoding, kinds) = (black_box(row), *black_box(&encoding), black_box(kinds));
        lookup_range_by_once(row, &encoding, kinds, address)
    })
}

#[inline(always)]
fn lookup_range_by_once(row: &Row, encoding: &Encoding, kinds: &[u8], address: u64) -> u64 {
    let ((s, n, t, m), encoding) = (lent(row), *encoding);
    let (table_base, at, base) = (row.table_base, row.offset, row.base_address);
    let (k, l) = (kinds.as_ptr(), kinds.len());
    found_range(unsafe {
        yz_range_lookup_by(s, n, t, m, table_base, encoding, at, base, k, l, address)
    })
}

#[inline(never)]
pub fn lookup_location(row: &Row, address: u64, passes: u64) -> u64 {
    let encoding = encoding(row);
    repeat!(passes, {
        let row = black_box(row);
        lookup_location_once(row, black_box(&encoding), row.offset, address)
    })
}

#[inline(always)]
pub fn lookup_location_once(row: &Row, encoding: &Encoding, offset: u64, address: u64) -> u64 {
    let ((s, n, t, m), encoding, table_base) = (lent(row), *encoding, row.table_base);
    let (file, base) = (file_type(row), row.base_address);
    let found = unsafe {
        yz_location_lookup(s, n, t, m, table_base, encoding, file, offset, base, address)
    };
    match found.result {
        DONE => added(found.item.begin, found.item),
        NOT_THERE => 0,
        _ => refused(found.refusal),
    }
}

/// The places that lookups of many addresses write their answers to.
pub fn places() -> Box<Found> {
    let item = Location::default();
    Box::new([Answer { result: REFUSED, refusal: 0, refusal_value: 0, item }; MOST_ADDRESSES])
}

/// What the answers to some addresses come to.
#[inline(always)]
pub fn stack_sum(sums: impl Iterator<Item = u64>) -> u64 {
    sums.fold(0, |sum, found| sum.rotate_left(1) ^ found)
}

/// One call for all addresses, which reads the whole list. Of a range, too, the
/// answer is a location, without an expression.
#[inline(always)]
fn stack(
    row: &Row,
    addresses: &[u64],
    found: &mut Found,
    passes: u64,
    call: impl Fn(&Row, Encoding, *const u64, usize, &mut Found) -> Answer<u64>,
) -> u64 {
    let encoding = encoding(row);
    let read = repeat!(passes, {
        let (row, encoding) = (black_box(row), *black_box(&encoding));
        let addresses = black_box(addresses);
        let read = call(row, encoding, addresses.as_ptr(), addresses.len(), found);
        black_box(&*found);
        counted(read)
    });
    assert_eq!(read, row.entries + 1, "{}", row.name);
    stack_sum(found.iter().take(addresses.len()).map(|found| match found.result {
        DONE => added(found.item.begin, found.item),
        NOT_THERE => 0,
        _ => refused(found.refusal),
    }))
}

#[inline(never)]
pub fn stack_ranges(row: &Row, addresses: &[u64], found: &mut Found, passes: u64) -> u64 {
    stack(row, addresses, found, passes, |row, encoding, a, o, found| {
        let ((s, n, t, m), table_base) = (lent(row), row.table_base);
        let (at, base) = (row.offset, row.base_address);
        unsafe { yz_range_lookups(s, n, t, m, table_base, encoding, at, base, a, o, found) }
    })
}

#[inline(never)]
pub fn stack_ranges_by(
    row: &Row,
    kinds: &[u8],
    addresses: &[u64],
    found: &mut Found,
    passes: u64,
) -> u64 {
    stack(row, addresses, found, passes, |row, encoding, a, o, found| {
        let ((s, n, t, m), table_base) = (lent(row), row.table_base);
        let (at, base, k, l) = (row.offset, row.base_address, kinds.as_ptr(), kinds.len());
        unsafe {
            yz_range_lookups_by(s, n, t, m, table_base, encoding, at, base, k, l, a, o, found)
        }
    })
}

#[inline(never)]
pub fn stack_locations(row: &Row, addresses: &[u64], found: &mut Found, passes: u64) -> u64 {
    stack(row, addresses, found, passes, |row, encoding, a, o, found| {
        let ((s, n, t, m), table_base) = (lent(row), row.table_base);
        let (at, base, file) = (row.offset, row.base_address, file_type(row));
        unsafe {
            yz_location_lookups(s, n, t, m, table_base, encoding, file, at, base, a, o, found)
        }
    })
}

/// A call for each address.
#[inline(never)]
pub fn each_range(row: &Row, addresses: &[u64], passes: u64) -> u64 {
    let encoding = encoding(row);
    repeat!(passes, {
        let (row, encoding, addresses) =
            (black_box(row), black_box(&encoding), black_box(addresses));
        let one = |&address| lookup_range_once(row, encoding, row.offset, address);
        stack_sum(addresses.iter().map(one))
    })
}

#[inline(never)]
pub fn each_range_by(row: &Row, kinds: &[u8], addresses: &[u64], passes: u64) -> u64 {
    let encoding = encoding(row);
    repeat!(passes, {
        let (row, encoding, addresses) =
            (black_box(row), black_box(&encoding), black_box(addresses));
        let one = |&address| lookup_range_by_once(row, encoding, kinds, address);
        stack_sum(addresses.iter().map(one))
    })
}

#[inline(never)]
pub fn each_location(row: &Row, addresses: &[u64], passes: u64) -> u64 {
    let encoding = encoding(row);
    repeat!(passes, {
        let (row, encoding, addresses) =
            (black_box(row), black_box(&encoding), black_box(addresses));
        let one = |&address| lookup_location_once(row, encoding, row.offset, address);
        stack_sum(addresses.iter().map(one))
    })
}

#[inline(never)]
pub fn headers(row: &Row, passes: u64) -> u64 {
    repeat!(passes, headers_once(black_box(row)))
}

#[inline(never)]
fn headers_once(row: &Row) -> u64 {
    let (t, m, big_endian) = (row.table.as_ptr(), row.table.len(), row.big_endian);
    let (mut at, mut sum) = (0, 0u64);
    loop {
        let next = unsafe { yz_table_next(t, m, big_endian, &mut at) };
        match next.result {
            DONE => sum = sum.wrapping_add(next.item.offset) ^ next.item.length,
            END => return sum,
            _ => refused(next.refusal),
        }
    }
}

#[inline(never)]
pub fn coverage(row: &Row, made: &mut Coverage, passes: u64) -> u64 {
    let encoding = encoding(row);
    repeat!(passes, {
        let row = black_box(row);
        range_coverage_once(row, black_box(&encoding), row.offset, made);
        black_box(&*made).n
    });
    made.sum()
}

/// How many ranges a coverage has, or bytes a canonical list.
#[inline(always)]
fn counted(count: Answer<u64>) -> u64 {
    if count.result != DONE {
        refused(count.refusal);
    }
    count.item
}

#[inline(always)]
pub fn range_coverage_once(row: &Row, encoding: &Encoding, offset: u64, made: &mut Coverage) {
    let ((s, n, t, m), encoding, table_base) = (lent(row), *encoding, row.table_base);
    let (base, begins, ends) = (row.base_address, &mut made.begins, &mut made.ends);
    made.n = counted(unsafe {
        yz_range_coverage(s, n, t, m, table_base, encoding, offset, base, begins, ends)
    });
}

#[inline(never)]
pub fn coverage_by(row: &Row, kinds: &[u8], made: &mut Coverage, passes: u64) -> u64 {
    let encoding = encoding(row);
    repeat!(passes, {
        let (row, encoding, kinds) = (black_box(row), *black_box(&encoding), black_box(kinds));
        let ((s, n, t, m), k, l) = (lent(row), kinds.as_ptr(), kinds.len());
        let (table_base, at, base) = (row.table_base, row.offset, row.base_address);
        let (begins, ends) = (&mut made.begins, &mut made.ends);
        made.n = counted(unsafe {
            yz_range_coverage_by(s, n, t, m, table_base, encoding, at, base, k, l, begins, ends)
        });
        black_box(&*made).n
    });
    made.sum()
}

#[inline(always)]
pub fn location_coverage_once(row: &Row, encoding: &Encoding, offset: u64, made: &mut Coverage) {
    let ((s, n, t, m), encoding, table_base) = (lent(row), *encoding, row.table_base);
    let (file, base) = (file_type(row), row.base_address);
    let (begins, ends) = (&mut made.begins, &mut made.ends);
    made.n = counted(unsafe {
        yz_location_coverage(s, n, t, m, table_base, encoding, file, offset, base, begins, ends)
    });
}

#[inline(never)]
pub fn runs(row: &Row, made: &mut Runs, passes: u64) -> u64 {
    let encoding = encoding(row);
    repeat!(passes, {
        let row = black_box(row);
        range_runs_once(row, black_box(&encoding), row.offset, made);
        black_box(&*made).n
    });
    made.sum()
}

#[inline(always)]
pub fn range_runs_once(row: &Row, encoding: &Encoding, offset: u64, made: &mut Runs) {
    let ((s, n, t, m), encoding, table_base) = (lent(row), *encoding, row.table_base);
    let (base, b, e) = (row.base_address, made.begins.len(), made.ends.len());
    let (begins, ends) = (made.begins.as_mut_ptr(), made.ends.as_mut_ptr());
    made.n = counted(unsafe {
        yz_range_runs(s, n, t, m, table_base, encoding, offset, base, begins, b, ends, e)
    });
}

#[inline(never)]
pub fn runs_by(row: &Row, kinds: &[u8], made: &mut Runs, passes: u64) -> u64 {
    let encoding = encoding(row);
    repeat!(passes, {
        let (row, encoding, kinds) = (black_box(row), *black_box(&encoding), black_box(kinds));
        let ((s, n, t, m), k, l) = (lent(row), kinds.as_ptr(), kinds.len());
        let (table_base, at, base) = (row.table_base, row.offset, row.base_address);
        let (begins, b) = (made.begins.as_mut_ptr(), made.begins.len());
        let (ends, e) = (made.ends.as_mut_ptr(), made.ends.len());
        made.n = counted(unsafe {
            yz_range_runs_by(s, n, t, m, table_base, encoding, at, base, k, l, begins, b, ends, e)
        });
        black_box(&*made).n
    });
    made.sum()
}

#[inline(always)]
pub fn location_runs_once(row: &Row, encoding: &Encoding, offset: u64, made: &mut Runs) {
    let ((s, n, t, m), encoding, table_base) = (lent(row), *encoding, row.table_base);
    let (file, base) = (file_type(row), row.base_address);
    let (begins, b) = (made.begins.as_mut_ptr(), made.begins.len());
    let (ends, e) = (made.ends.as_mut_ptr(), made.ends.len());
    made.n = counted(unsafe {
        yz_location_runs(s, n, t, m, table_base, encoding, file, offset, base, begins, b, ends, e)
    });
}

#[inline(never)]
pub fn canonical(row: &Row, output: &mut [u8], passes: u64) -> u64 {
    let encoding = encoding(row);
    let written = repeat!(passes, {
        let row = black_box(row);
        let written = range_canonical_once(row, black_box(&encoding), row.offset, output);
        black_box(&*output);
        written
    });
    sum_of_bytes(&output[..written as usize])
}

#[inline(always)]
pub fn range_canonical_once(row: &Row, encoding: &Encoding, offset: u64, output: &mut [u8]) -> u64 {
    let ((s, n, t, m), encoding, table_base) = (lent(row), *encoding, row.table_base);
    let (base, o, length) = (row.base_address, output.as_mut_ptr(), output.len());
    counted(unsafe {
        yz_range_canonical(s, n, t, m, table_base, encoding, offset, base, o, length)
    })
}

#[inline(never)]
pub fn canonical_by(row: &Row, kinds: &[u8], output: &mut [u8], passes: u64) -> u64 {
    let encoding = encoding(row);
    let written = repeat!(passes, {
        let (row, encoding, kinds) = (black_box(row), *black_box(&encoding), black_box(kinds));
        let ((s, n, t, m), k, l) = (lent(row), kinds.as_ptr(), kinds.len());
        let (table_base, at, base) = (row.table_base, row.offset, row.base_address);
        let (o, length) = (output.as_mut_ptr(), output.len());
        let written = counted(unsafe {
            yz_range_canonical_by(s, n, t, m, table_base, encoding, at, base, k, l, o, length)
        });
        black_box(&*output);
        written
    });
    sum_of_bytes(&output[..written as usize])
}

#[inline(always)]
pub fn location_canonical_once(
    row: &Row,
    encoding: &Encoding,
    offset: u64,
    output: &mut [u8],
) -> u64 {
    let ((s, n, t, m), encoding, table_base) = (lent(row), *encoding, row.table_base);
    let (file, base) = (file_type(row), row.base_address);
    let (o, length) = (output.as_mut_ptr(), output.len());
    counted(unsafe {
        yz_location_canonical(s, n, t, m, table_base, encoding, file, offset, base, o, length)
    })
}

#[inline(never)]
pub fn sheet(made: &Coverage, output: &mut [u8], passes: u64) -> u64 {
    let written = repeat!(passes, {
        let (made, o, length) = (black_box(made), output.as_mut_ptr(), output.len());
        let written = counted(unsafe { yz_sheet(made.n, &made.begins, &made.ends, o, length) });
        black_box(&*output);
        written
    });
    sum_of_bytes(&output[..written as usize])
}

#[inline(never)]
pub fn from_sheet(sheet: &[u8], made: &mut Coverage, passes: u64) -> u64 {
    repeat!(passes, {
        let sheet = black_box(sheet);
        let (s, n, begins, ends) = (sheet.as_ptr(), sheet.len(), &mut made.begins, &mut made.ends);
        made.n = counted(unsafe { yz_coverage_from_sheet(s, n, begins, ends) });
        black_box(&*made).n
    });
    made.sum()
}

/// Whether a table of kind numbers is loaded.
#[inline(never)]
pub fn load(table: &[u8], passes: u64) -> u64 {
    repeat!(passes, {
        let table = black_box(table);
        let loaded = unsafe { yz_kinds_load(table.as_ptr(), table.len()) };
        u64::from(loaded.result == DONE)
    })
}
