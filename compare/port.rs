//! The port through its C interface, as `bindings/yeltzarun.h` tells it.

// The declarations of the wrapper.
#[allow(dead_code)]
#[path = "../bindings/yeltzarun/ffi.rs"]
#[rustfmt::skip]
mod ffi;

use crate::added::{Added, Kept, Marks, Tabled, Words, Wrote};
use crate::differ::{Found, Noted, Number, Port, Stack};
pub use ffi::LIMIT;
use ffi::*;
use oracle::oracle_api::{
    Answer, Converted, Form, Kind, List, Lists, Place, Raw, Refusal, State, Table, Yielded,
};
use std::hint::black_box;

pub struct Ffi;

/// The last word of a range list's walk: no call may look at it or change it;
/// and all words of a walk that is not opened yet.
const OLD: u64 = 0x5555_5555_5555_5555;

/// An answer by its result, `without` being the one that has no item; the
/// fields that a result doesn't name must be 0.
fn answer<T: Default + PartialEq, U>(
    answer: ffi::Answer<T>,
    without: u32,
    item: impl FnOnce(T) -> U,
) -> Answer<U> {
    let ffi::Answer { result, refusal, refusal_value: value, item: found } = answer;
    assert!(result == DONE || found == T::default());
    assert!(result == REFUSED || (refusal, value) == (0, 0));
    match result {
        DONE => Answer::Entry(item(found)),
        REFUSED => Answer::Refused(Refusal { number: refusal as u8, value }),
        result if result == without => Answer::End,
        _ => panic!("no such result: {result}"),
    }
}

/// The same for a call that is done or refused.
fn result<T: Default + PartialEq, U>(
    given: ffi::Answer<T>,
    item: impl FnOnce(T) -> U,
) -> Result<U, Refusal> {
    match answer(given, REFUSED, item) {
        Answer::Entry(item) => Ok(item),
        Answer::Refused(refusal) => Err(refusal),
        Answer::End => unreachable!(),
    }
}

fn read(answer: ffi::Answer<Read>) -> Result<(u64, u64), Refusal> {
    result(answer, |read| (read.number, read.next))
}

fn place(part: Part) -> Place {
    Place { offset: part.offset, length: part.length }
}

fn encoding(list: &List) -> Encoding {
    Encoding {
        version: list.version,
        address_size: list.address_size,
        dwarf64: list.dwarf64,
        big_endian: list.big_endian.into(),
    }
}

/// An encoding of which size, format and order count.
fn written(address_size: u8, dwarf64: bool, big_endian: bool) -> Encoding {
    Encoding { version: 5, address_size, dwarf64, big_endian: big_endian.into() }
}

/// Of a list's two sections the one that the port tells.
fn section<'a>(list: &List<'a>) -> &'a [u8] {
    if yz_section_of(encoding(list)) == SECTION_BEFORE_5 { list.old } else { list.new }
}

/// Section and table, each a pointer and a length.
fn lent(list: &List) -> (Ptr, usize, Ptr, usize) {
    let (s, t) = (section(list), list.table);
    (s.as_ptr(), s.len(), t.as_ptr(), t.len())
}

fn file_type(list: &List) -> u32 {
    if list.kind == Kind::SplitLocations { FILE_DWO } else { FILE_MAIN }
}

/// A walk's last word, by its list.
fn split(list: &List) -> u64 {
    match list.kind {
        Kind::Ranges => OLD,
        Kind::Locations => 0,
        Kind::SplitLocations => 1,
    }
}

fn walk(list: &List, state: State) -> Walk {
    let State { place: at, base_address, entries } = state;
    Walk { at, base_address, entries, split: split(list) }
}

fn state(list: &List, walk: Walk) -> State {
    assert!(walk.split == split(list));
    State { place: walk.at, base_address: walk.base_address, entries: walk.entries }
}

fn range(range: Range) -> Yielded {
    Yielded { begin: range.begin, end: range.end, expression: None }
}

fn location(location: Location) -> Yielded {
    let Location { begin, end, expression } = location;
    Yielded { begin, end, expression: Some(place(expression)) }
}

/// The same of an answer that was read from the section: the expression lies
/// there.
fn location_in(section: &[u8], found: Location) -> Yielded {
    let lying = unsafe { yz_expression(section.as_ptr(), section.len(), found.expression) };
    assert!(lying == found.expression);
    location(found)
}

const RANGES: [Form; 8] = [
    Form::BarePair,
    Form::BaseIndex,
    Form::StartEndIndex,
    Form::StartLengthIndex,
    Form::OffsetPair,
    Form::Base,
    Form::StartEnd,
    Form::StartLength,
];

const LOCATIONS: [Form; 9] = [
    Form::BarePair,
    Form::BaseIndex,
    Form::StartEndIndex,
    Form::StartLengthIndex,
    Form::OffsetPair,
    Form::Default,
    Form::Base,
    Form::StartEnd,
    Form::StartLength,
];

fn forms(kind: Kind) -> &'static [Form] {
    if kind == Kind::Ranges { &RANGES } else { &LOCATIONS }
}

fn raw_range(entry: RangeEntry) -> Raw {
    let RangeEntry { kind, first, second } = entry;
    Raw { form: RANGES[kind as usize], first, second, expression: None }
}

fn raw_location(entry: LocationEntry) -> Raw {
    let LocationEntry { kind, first, second, expression } = entry;
    let form = LOCATIONS[kind as usize];
    let located = !matches!(form, Form::Base | Form::BaseIndex);
    assert!(located || expression == Part::default());
    Raw { form, first, second, expression: located.then_some(place(expression)) }
}

/// A word that is 1 or 0.
fn flag(word: u64) -> bool {
    assert!(word < 2);
    word == 1
}

/// The places of answers as the words that they are.
fn lent_places(found: &mut Stack) -> &mut ffi::Found {
    const { assert!(size_of::<Stack>() == size_of::<ffi::Found>()) };
    unsafe { &mut *(found as *mut Stack).cast() }
}

fn noted_range(RawRange { entry, padded }: RawRange) -> Noted {
    Noted { entry: raw_range(entry), padded: flag(padded) }
}

/// A call that gives the next item of a walk.
type Next<T> =
    unsafe extern "C" fn(Ptr, usize, Ptr, usize, u64, Encoding, &mut Walk) -> ffi::Answer<T>;

fn next_with(
    list: &List,
    from: State,
    ranges: Next<Range>,
    locations: Next<Location>,
) -> (Answer<Yielded>, State) {
    let ((s, n, t, m), mut walk) = (lent(list), walk(list, from));
    let (base, encoding) = (list.table_base, encoding(list));
    let next = if list.kind == Kind::Ranges {
        answer(unsafe { ranges(s, n, t, m, base, encoding, &mut walk) }, END, range)
    } else {
        let next = unsafe { locations(s, n, t, m, base, encoding, &mut walk) };
        answer(next, END, |found| location_in(section(list), found))
    };
    (next, state(list, walk))
}

/// The same by a table.
type NextBy = unsafe extern "C" fn(
    Ptr,
    usize,
    Ptr,
    usize,
    u64,
    Encoding,
    Ptr,
    usize,
    &mut Walk,
) -> ffi::Answer<Range>;

fn next_with_table(
    list: &List,
    kinds: &[u8],
    from: State,
    next: NextBy,
) -> (Answer<Yielded>, State) {
    let ((s, n, t, m), mut walk) = (lent(list), walk(list, from));
    let (base, encoding, k, l) = (list.table_base, encoding(list), kinds.as_ptr(), kinds.len());
    let next = unsafe { next(s, n, t, m, base, encoding, k, l, &mut walk) };
    (answer(next, END, range), state(list, walk))
}

impl Port for Ffi {
    fn open(&self, list: &List) -> Result<State, Refusal> {
        let (s, n, ..) = lent(list);
        let (encoding, offset, base) = (encoding(list), list.offset, list.base_address);
        let untouched = Walk { at: OLD, base_address: OLD, entries: OLD, split: OLD };
        let mut walk = untouched;
        let opened = if list.kind == Kind::Ranges {
            unsafe { yz_range_open(s, n, encoding, offset, base, &mut walk) }
        } else {
            let file_type = file_type(list);
            unsafe { yz_location_open(s, n, encoding, file_type, offset, base, &mut walk) }
        };
        let opened = result(opened, |_| ());
        assert!(opened.is_ok() || walk == untouched);
        opened.map(|()| {
            assert!(walk.split == u64::from(file_type(list)));
            State { place: walk.at, base_address: walk.base_address, entries: walk.entries }
        })
    }

    fn next(&self, list: &List, from: State) -> (Answer<Yielded>, State) {
        next_with(list, from, yz_range_next, yz_location_next)
    }

    fn next_in_profile(&self, list: &List, from: State) -> (Answer<Yielded>, State) {
        next_with(list, from, yz_range_next_in_profile, yz_location_next_in_profile)
    }

    fn next_raw(&self, list: &List, from: State) -> (Answer<Noted>, State) {
        let ((s, n, ..), mut walk) = (lent(list), walk(list, from));
        let encoding = encoding(list);
        let next = if list.kind == Kind::Ranges {
            let next = unsafe { yz_range_next_raw(s, n, encoding, &mut walk) };
            answer(next, END, noted_range)
        } else {
            let next = unsafe { yz_location_next_raw(s, n, encoding, &mut walk) };
            answer(next, END, |RawLocation { entry, padded }| Noted {
                entry: raw_location(entry),
                padded: flag(padded),
            })
        };
        (next, state(list, walk))
    }

    fn convert_raw(&self, list: &List, from: State, entry: Raw) -> (Converted, State) {
        let ((_, _, t, m), mut walk) = (lent(list), walk(list, from));
        let (base, encoding) = (list.table_base, encoding(list));
        let kind = forms(list.kind).iter().position(|&form| form == entry.form).expect("a form");
        let (kind, first, second) = (kind as u64, entry.first, entry.second);
        let converted = if list.kind == Kind::Ranges {
            let entry = RangeEntry { kind, first, second };
            let made = unsafe { yz_range_convert_raw(t, m, base, encoding, entry, &mut walk) };
            answer(made, NOTHING, range)
        } else {
            let x = entry.expression.unwrap_or(Place { offset: OLD, length: OLD });
            let expression = Part { offset: x.offset, length: x.length };
            let entry = LocationEntry { kind, first, second, expression };
            let made = unsafe { yz_location_convert_raw(t, m, base, encoding, entry, &mut walk) };
            answer(made, NOTHING, location)
        };
        let converted = match converted {
            Answer::Entry(entry) => Converted::Entry(entry),
            Answer::End => Converted::Nothing,
            Answer::Refused(refusal) => Converted::Refused(refusal),
        };
        (converted, state(list, walk))
    }

    fn lookup(&self, list: &List, address: u64) -> Found {
        let (s, n, t, m) = lent(list);
        let (base, encoding) = (list.table_base, encoding(list));
        let (at, low) = (list.offset, list.base_address);
        if list.kind == Kind::Ranges {
            let found = unsafe { yz_range_lookup(s, n, t, m, base, encoding, at, low, address) };
            return answer(found, NOT_THERE, range);
        }
        let file_type = file_type(list);
        let found =
            unsafe { yz_location_lookup(s, n, t, m, base, encoding, file_type, at, low, address) };
        answer(found, NOT_THERE, |found| location_in(section(list), found))
    }

    fn lookups(&self, list: &List, addresses: &[u64], found: &mut Stack) -> Result<u64, Refusal> {
        let (s, n, t, m) = lent(list);
        let (base, encoding) = (list.table_base, encoding(list));
        let (at, low) = (list.offset, list.base_address);
        let (a, l, found) = (addresses.as_ptr(), addresses.len(), lent_places(found));
        wrote(if list.kind == Kind::Ranges {
            unsafe { yz_range_lookups(s, n, t, m, base, encoding, at, low, a, l, found) }
        } else {
            let file = file_type(list);
            unsafe { yz_location_lookups(s, n, t, m, base, encoding, file, at, low, a, l, found) }
        })
    }

    fn get_address(
        &self,
        table: &[u8],
        big_endian: bool,
        size: u8,
        base: u64,
        index: u64,
    ) -> Result<u64, Refusal> {
        let (t, m, encoding) = (table.as_ptr(), table.len(), written(size, false, big_endian));
        result(unsafe { yz_get_address(t, m, base, encoding, index) }, |address| address)
    }

    fn next_table(&self, section: &[u8], big_endian: bool, from: u64) -> (Answer<Table>, u64) {
        let (t, m, mut at) = (section.as_ptr(), section.len(), from);
        let next = unsafe { yz_table_next(t, m, big_endian, &mut at) };
        let table = answer(next, END, |header| {
            let TableHeader { encoding, offset, length, entries } = header;
            assert!(encoding.big_endian == u32::from(big_endian));
            Table {
                offset,
                length,
                dwarf64: encoding.dwarf64,
                version: encoding.version,
                address_size: encoding.address_size,
                entries: place(entries),
            }
        });
        (table, at)
    }

    fn next_entry(
        &self,
        section: &[u8],
        big_endian: bool,
        size: u8,
        rest: Place,
    ) -> (Answer<u64>, Place) {
        let (t, m, encoding) = (section.as_ptr(), section.len(), written(size, true, big_endian));
        let mut left = Part { offset: rest.offset, length: rest.length };
        let next = unsafe { yz_table_entry_next(t, m, encoding, &mut left) };
        (answer(next, END, |address| address), place(left))
    }

    fn lists_header(&self, section: &[u8], big_endian: bool) -> Result<Lists, Refusal> {
        let (s, n) = (section.as_ptr(), section.len());
        result(unsafe { yz_lists_header(s, n, big_endian, 0) }, |header| {
            let ListsHeader { encoding, offset_entry_count, header_size, rest } = header;
            assert!(encoding.big_endian == u32::from(big_endian));
            Lists {
                dwarf64: encoding.dwarf64,
                version: encoding.version,
                address_size: encoding.address_size,
                entry_count: offset_entry_count as u32,
                size: header_size as u8,
                rest: place(rest),
            }
        })
    }

    fn get_offset(
        &self,
        kind: Kind,
        section: &[u8],
        big_endian: bool,
        dwarf64: bool,
        base: u64,
        index: u64,
    ) -> Result<u64, Refusal> {
        let get = if kind == Kind::Ranges { yz_range_get_offset } else { yz_location_get_offset };
        let (s, n, encoding) = (section.as_ptr(), section.len(), written(0, dwarf64, big_endian));
        result(unsafe { get(s, n, base, encoding, index) }, |offset| offset)
    }

    fn default_base(&self, kind: Kind, version: u16, dwarf64: bool, split_file: bool) -> u64 {
        let encoding = Encoding { version, ..written(0, dwarf64, false) };
        let file_type = if split_file { FILE_DWO } else { FILE_MAIN };
        if kind == Kind::Ranges {
            yz_range_default_base(encoding, file_type)
        } else {
            yz_location_default_base(encoding, file_type)
        }
    }

    fn uleb128(&self, bytes: &[u8], at: u64) -> Result<Number, Refusal> {
        result(unsafe { yz_uleb128(bytes.as_ptr(), bytes.len(), at as usize) }, |read| {
            let Leb128 { next, number: value, length, padded } = read;
            Number { value, next, length, padded: flag(padded) }
        })
    }

    fn read_number(&self, bytes: &[u8], big: bool, width: u8) -> Result<(u64, u64), Refusal> {
        let (s, n) = (bytes.as_ptr(), bytes.len());
        read(unsafe {
            match width {
                1 => yz_read_u8(s, n, 0),
                2 => yz_read_u16(s, n, big, 0),
                4 => yz_read_u32(s, n, big, 0),
                8 => yz_read_u64(s, n, big, 0),
                _ => panic!("no number is {width} bytes wide"),
            }
        })
    }

    fn read_address(&self, bytes: &[u8], big: bool, size: u8) -> Result<(u64, u64), Refusal> {
        let encoding = written(size, false, big);
        read(unsafe { yz_read_address(bytes.as_ptr(), bytes.len(), encoding, 0) })
    }

    fn read_offset(&self, bytes: &[u8], big: bool, dwarf64: bool) -> Result<(u64, u64), Refusal> {
        let encoding = written(0, dwarf64, big);
        read(unsafe { yz_read_offset(bytes.as_ptr(), bytes.len(), encoding, 0) })
    }

    fn initial_length(&self, bytes: &[u8], big: bool) -> Result<(u64, bool, u64), Refusal> {
        result(unsafe { yz_initial_length(bytes.as_ptr(), bytes.len(), big, 0) }, |unit| {
            (unit.length, flag(unit.dwarf64), unit.next)
        })
    }

    fn read_address_size(&self, bytes: &[u8]) -> Result<(u8, u64), Refusal> {
        let read = read(unsafe { yz_read_address_size(bytes.as_ptr(), bytes.len(), 0) });
        read.map(|(size, next)| (size as u8, next))
    }

    fn skip(&self, bytes: &[u8], count: u64) -> Result<Place, Refusal> {
        let left = |at: u64| Place { offset: at, length: bytes.len() as u64 - at };
        result(unsafe { yz_skip(bytes.as_ptr(), bytes.len(), 0, count) }, left)
    }

    fn split(&self, bytes: &[u8], count: u64) -> Result<(Place, Place), Refusal> {
        let left = |at: u64| Place { offset: at, length: bytes.len() as u64 - at };
        result(unsafe { yz_split(bytes.as_ptr(), bytes.len(), 0, count) }, |split| {
            (place(split.part), left(split.next))
        })
    }

    fn truncate(&self, bytes: &[u8], length: u64) -> Result<Place, Refusal> {
        let cut = |end: u64| Place { offset: 0, length: end };
        result(unsafe { yz_truncate(bytes.as_ptr(), bytes.len(), 0, length) }, cut)
    }

    fn wrapping_add_sized(&self, address: u64, length: u64, size: u8) -> u64 {
        yz_wrapping_add_sized(address, length, size)
    }

    fn min_tombstone(&self, size: u8) -> u64 {
        yz_min_tombstone(size)
    }
}

fn wrote(answer: ffi::Answer<u64>) -> Wrote {
    result(answer, |count| count)
}

fn walk_of([at, base_address, entries, split]: Words) -> Walk {
    Walk { at, base_address, entries, split }
}

fn words(walk: Walk) -> Words {
    let Walk { at, base_address, entries, split } = walk;
    [at, base_address, entries, split]
}

/// A call on walk and marks. What it leaves is seen in memory, also of what it is
/// lent to read.
fn marking(
    walk: &mut Words,
    marks: &mut Marks,
    call: impl FnOnce(&mut Walk, &mut ffi::Marks) -> Done,
) -> Result<(), Refusal> {
    let mark = |[is_set, walk @ ..]: [u64; 5]| Mark { is_set, walk: walk_of(walk) };
    let mut lent = (walk_of(*walk), marks.map(mark));
    let done = call(&mut lent.0, &mut lent.1);
    let (lent_walk, lent_marks) = black_box(&mut lent);
    *walk = words(*lent_walk);
    *marks = lent_marks.map(|Mark { is_set, walk }| {
        let [at, base_address, entries, split] = words(walk);
        [is_set, at, base_address, entries, split]
    });
    result(done, |_| ())
}

impl Added for Ffi {
    fn coverage(&self, list: &List, kept: &mut Kept) -> Wrote {
        let (s, n, t, m) = lent(list);
        let (base, encoding) = (list.table_base, encoding(list));
        let (at, low) = (list.offset, list.base_address);
        let Kept { begins, ends } = kept;
        wrote(if list.kind == Kind::Ranges {
            unsafe { yz_range_coverage(s, n, t, m, base, encoding, at, low, begins, ends) }
        } else {
            let file = file_type(list);
            unsafe { yz_location_coverage(s, n, t, m, base, encoding, file, at, low, begins, ends) }
        })
    }

    fn runs(&self, list: &List, begins: &mut [u64], ends: &mut [u64]) -> Wrote {
        let (s, n, t, m) = lent(list);
        let (base, encoding) = (list.table_base, encoding(list));
        let (at, low) = (list.offset, list.base_address);
        let (b, e, bs, es) = (begins.len(), ends.len(), begins.as_mut_ptr(), ends.as_mut_ptr());
        wrote(if list.kind == Kind::Ranges {
            unsafe { yz_range_runs(s, n, t, m, base, encoding, at, low, bs, b, es, e) }
        } else {
            let file = file_type(list);
            unsafe { yz_location_runs(s, n, t, m, base, encoding, file, at, low, bs, b, es, e) }
        })
    }

    fn coverage_from_canonical(&self, bytes: &[u8], kept: &mut Kept) -> Wrote {
        let (s, n) = (bytes.as_ptr(), bytes.len());
        wrote(unsafe { yz_coverage_from_canonical(s, n, &mut kept.begins, &mut kept.ends) })
    }

    fn coverage_from_sheet(&self, sheet: &[u8], kept: &mut Kept) -> Wrote {
        let (s, n) = (sheet.as_ptr(), sheet.len());
        wrote(unsafe { yz_coverage_from_sheet(s, n, &mut kept.begins, &mut kept.ends) })
    }

    fn sheet(&self, n: u64, kept: &Kept, output: &mut [u8]) -> Wrote {
        let (o, len) = (output.as_mut_ptr(), output.len());
        wrote(unsafe { yz_sheet(n, &kept.begins, &kept.ends, o, len) })
    }

    fn canonical(&self, n: u64, kept: &Kept, output: &mut [u8]) -> Wrote {
        let (o, len) = (output.as_mut_ptr(), output.len());
        wrote(unsafe { yz_canonical(n, &kept.begins, &kept.ends, o, len) })
    }

    fn canonical_of(&self, list: &List, output: &mut [u8]) -> Wrote {
        let (s, n, t, m) = lent(list);
        let (base, encoding) = (list.table_base, encoding(list));
        let (at, low) = (list.offset, list.base_address);
        let (o, len) = (output.as_mut_ptr(), output.len());
        wrote(if list.kind == Kind::Ranges {
            unsafe { yz_range_canonical(s, n, t, m, base, encoding, at, low, o, len) }
        } else {
            let file = file_type(list);
            unsafe { yz_location_canonical(s, n, t, m, base, encoding, file, at, low, o, len) }
        })
    }

    fn set_mark(&self, number: u64, walk: &mut Words, marks: &mut Marks) -> Result<(), Refusal> {
        marking(walk, marks, |walk, marks| yz_mark_set(number, walk, marks))
    }

    fn return_to(&self, number: u64, walk: &mut Words, marks: &mut Marks) -> Result<(), Refusal> {
        marking(walk, marks, |walk, marks| yz_mark_return(number, marks, walk))
    }
}

/// Range lists alone have tables.
impl Tabled for Ffi {
    fn load_kinds(&self, table: &[u8]) -> Result<(), Refusal> {
        result(unsafe { yz_kinds_load(table.as_ptr(), table.len()) }, |_| ())
    }

    fn next_by(&self, list: &List, kinds: &[u8], from: State) -> (Answer<Yielded>, State) {
        next_with_table(list, kinds, from, yz_range_next_by)
    }

    fn next_in_profile_by(
        &self,
        list: &List,
        kinds: &[u8],
        from: State,
    ) -> (Answer<Yielded>, State) {
        next_with_table(list, kinds, from, yz_range_next_in_profile_by)
    }

    fn next_raw_by(&self, list: &List, kinds: &[u8], from: State) -> (Answer<Noted>, State) {
        let ((s, n, ..), mut walk) = (lent(list), walk(list, from));
        let (encoding, k, l) = (encoding(list), kinds.as_ptr(), kinds.len());
        let next = unsafe { yz_range_next_raw_by(s, n, encoding, k, l, &mut walk) };
        (answer(next, END, noted_range), state(list, walk))
    }

    fn lookup_by(&self, list: &List, kinds: &[u8], address: u64) -> Found {
        let (s, n, t, m) = lent(list);
        let (base, encoding, k, l) = (list.table_base, encoding(list), kinds.as_ptr(), kinds.len());
        let (at, low) = (list.offset, list.base_address);
        let found =
            unsafe { yz_range_lookup_by(s, n, t, m, base, encoding, at, low, k, l, address) };
        answer(found, NOT_THERE, range)
    }

    fn lookups_by(
        &self,
        list: &List,
        kinds: &[u8],
        addresses: &[u64],
        found: &mut Stack,
    ) -> Result<u64, Refusal> {
        let (s, n, t, m) = lent(list);
        let (base, encoding, k, l) = (list.table_base, encoding(list), kinds.as_ptr(), kinds.len());
        let (at, low) = (list.offset, list.base_address);
        let (a, o, found) = (addresses.as_ptr(), addresses.len(), lent_places(found));
        wrote(unsafe {
            yz_range_lookups_by(s, n, t, m, base, encoding, at, low, k, l, a, o, found)
        })
    }

    fn coverage_by(&self, list: &List, kinds: &[u8], kept: &mut Kept) -> Wrote {
        let (s, n, t, m) = lent(list);
        let (base, encoding, k, l) = (list.table_base, encoding(list), kinds.as_ptr(), kinds.len());
        let (at, low) = (list.offset, list.base_address);
        let Kept { begins, ends } = kept;
        wrote(unsafe {
            yz_range_coverage_by(s, n, t, m, base, encoding, at, low, k, l, begins, ends)
        })
    }

    fn runs_by(&self, list: &List, kinds: &[u8], begins: &mut [u64], ends: &mut [u64]) -> Wrote {
        let (s, n, t, m) = lent(list);
        let (base, encoding, k, l) = (list.table_base, encoding(list), kinds.as_ptr(), kinds.len());
        let (at, low) = (list.offset, list.base_address);
        let (b, e, bs, es) = (begins.len(), ends.len(), begins.as_mut_ptr(), ends.as_mut_ptr());
        wrote(unsafe { yz_range_runs_by(s, n, t, m, base, encoding, at, low, k, l, bs, b, es, e) })
    }

    fn canonical_by(&self, list: &List, kinds: &[u8], output: &mut [u8]) -> Wrote {
        let (s, n, t, m) = lent(list);
        let (base, encoding, k, l) = (list.table_base, encoding(list), kinds.as_ptr(), kinds.len());
        let (at, low) = (list.offset, list.base_address);
        let (o, len) = (output.as_mut_ptr(), output.len());
        wrote(unsafe { yz_range_canonical_by(s, n, t, m, base, encoding, at, low, k, l, o, len) })
    }
}
