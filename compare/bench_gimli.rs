//! gimli's side: `next` of `RngListIter` and `LocListIter` over `EndianSlice`,
//! in loops that are instantiated twice.
//!
//! Over `RunTimeEndian` all loops of the program share one `next`, which stays
//! a call ("several callers"). Each of the byte orders `Walking`, `Seeking`,
//! `Covering`, `Putting`, `Writing`, `Heading`, `Marking`, `Entering`,
//! `Choosing`, `Profiling`, `Numbering`, `Stacking` is a `RunTimeEndian` under another name,
//! so that its `next` has one caller and is inlined there ("one caller"); those
//! with `Real` before are for loops over many lists. Raw entries, with or without
//! their conversion, and numbers have an order for several callers, too, whose
//! name begins with `Shared`: the raw `next` over `RunTimeEndian` has one caller,
//! the other `next`, and so has the conversion.

use crate::bench_port::{raw_sum, stack_sum};
use crate::bench_rows::{Kind, Row};
use crate::bench_sets::uleb128_length;
use oracle::common::{
    DebugAddrBase, DebugAddrIndex, Encoding, Format, LocationListsOffset, RangeListsOffset,
};
use oracle::endianity::{Endianity, RunTimeEndian};
use oracle::oracle_api::{min_tombstone, wrapping_add_sized};
use oracle::read::{
    DebugAddr, DebugLoc, DebugLocLists, DebugRanges, DebugRngLists, EndianSlice, Error, Expression,
    LocListIter, LocationListEntry, LocationLists, Range, RangeLists, RawLocListEntry,
    RawLocListIter, RawRngListEntry, RawRngListIter, Reader, RngListIter,
};
use std::hint::black_box;

macro_rules! orders {
    ($($name:ident)*) => {
        $(
            #[derive(Debug, Default, Clone, Copy, PartialEq, Eq)]
            pub struct $name(RunTimeEndian);

            impl Endianity for $name {
                #[inline]
                fn is_big_endian(self) -> bool {
                    self.0.is_big_endian()
                }
            }

            impl From<RunTimeEndian> for $name {
                fn from(order: RunTimeEndian) -> $name {
                    $name(order)
                }
            }
        )*
    };
}

orders! { Walking Seeking Covering Putting Writing Heading Marking }
orders! { Entering SharedEntering Choosing SharedChoosing Profiling Numbering SharedNumbering }
orders! { Stacking RealWalking RealSeeking RealCovering RealPutting RealWriting }

/// A byte order that the program chooses when it runs.
pub trait Order: Endianity + From<RunTimeEndian> {}

impl<E: Endianity + From<RunTimeEndian>> Order for E {}

type Slice<'a, E> = EndianSlice<'a, E>;

/// A row as gimli's types, made once; opening a list starts from here.
pub struct Lists<'a, E: Endianity> {
    ranges: RangeLists<Slice<'a, E>>,
    locations: LocationLists<Slice<'a, E>>,
    table: DebugAddr<Slice<'a, E>>,
    table_base: DebugAddrBase<usize>,
    section: &'a [u8],
    pub offset: u64,
    encoding: Encoding,
    base_address: u64,
    split: bool,
}

impl<'a, E: Order> Lists<'a, E> {
    pub fn new(row: &'a Row) -> Lists<'a, E> {
        let order = if row.big_endian { RunTimeEndian::Big } else { RunTimeEndian::Little };
        let order = E::from(order);
        let (version, address_size) = (row.version, row.address_size);
        let format = if row.dwarf64 { Format::Dwarf64 } else { Format::Dwarf32 };
        let section = row.section;
        let (old, new) = if version <= 4 { (section, &[][..]) } else { (&[][..], section) };
        Lists {
            ranges: RangeLists::new(DebugRanges::new(old, order), DebugRngLists::new(new, order)),
            locations: LocationLists::new(
                DebugLoc::new(old, order),
                DebugLocLists::new(new, order),
            ),
            table: DebugAddr::from(EndianSlice::new(row.table, order)),
            table_base: DebugAddrBase(row.table_base as usize),
            section,
            offset: row.offset,
            encoding: Encoding { address_size, format, version },
            base_address: row.base_address,
            split: row.kind == Kind::SplitLocations,
        }
    }

    #[inline(always)]
    pub fn open_ranges(&self, offset: u64) -> Result<RngListIter<Slice<'a, E>>, Error> {
        let offset = RangeListsOffset(offset as usize);
        self.ranges.ranges(offset, self.encoding, self.base_address, &self.table, self.table_base)
    }

    #[inline(always)]
    pub fn open_locations(&self, offset: u64) -> Result<LocListIter<Slice<'a, E>>, Error> {
        let offset = LocationListsOffset(offset as usize);
        let (encoding, base, table) = (self.encoding, self.base_address, &self.table);
        if self.split {
            self.locations.locations_dwo(offset, encoding, base, table, self.table_base)
        } else {
            self.locations.locations(offset, encoding, base, table, self.table_base)
        }
    }

    #[inline(always)]
    fn open_raw_ranges(&self) -> Result<RawRngListIter<Slice<'a, E>>, Error> {
        self.ranges.raw_ranges(RangeListsOffset(self.offset as usize), self.encoding)
    }

    #[inline(always)]
    fn open_raw_locations(&self) -> Result<RawLocListIter<Slice<'a, E>>, Error> {
        let offset = LocationListsOffset(self.offset as usize);
        if self.split {
            self.locations.raw_locations_dwo(offset, self.encoding)
        } else {
            self.locations.raw_locations(offset, self.encoding)
        }
    }

    /// The place of an expression, counted from the section's start.
    #[inline(always)]
    fn place(&self, entry: &LocationListEntry<Slice<'a, E>>) -> u64 {
        self.place_of(&entry.data)
    }

    #[inline(always)]
    fn place_of(&self, expression: &Expression<Slice<'a, E>>) -> u64 {
        let bytes = expression.0.slice();
        (bytes.as_ptr() as usize).wrapping_sub(self.section.as_ptr() as usize) as u64
    }
}

pub fn refused(error: Error) -> ! {
    panic!("gimli refused: {error:?}")
}

#[inline(never)]
pub fn walk_ranges<E: Order>(lists: &Lists<'_, E>, passes: u64) -> u64 {
    repeat!(passes, {
        let lists = black_box(lists);
        walk_ranges_once(lists, lists.offset).unwrap_or_else(|error| refused(error))
    })
}

#[inline(always)]
pub fn walk_ranges_once<E: Order>(lists: &Lists<'_, E>, offset: u64) -> Result<u64, Error> {
    walk_ranges_with(lists, offset, |_| {})
}

/// Behind each entry something is done with the walk.
#[inline(always)]
fn walk_ranges_with<'a, E: Order>(
    lists: &Lists<'a, E>,
    offset: u64,
    mut behind: impl FnMut(&mut RngListIter<Slice<'a, E>>),
) -> Result<u64, Error> {
    let mut walk = lists.open_ranges(offset)?;
    let mut sum = 0u64;
    while let Some(range) = walk.next()? {
        sum = sum.wrapping_add(range.begin) ^ range.end;
        behind(&mut walk);
    }
    Ok(sum)
}

#[inline(never)]
pub fn walk_locations<E: Order>(lists: &Lists<'_, E>, passes: u64) -> u64 {
    repeat!(passes, {
        let lists = black_box(lists);
        walk_locations_once(lists, lists.offset).unwrap_or_else(|error| refused(error))
    })
}

#[inline(always)]
pub fn walk_locations_once<E: Order>(lists: &Lists<'_, E>, offset: u64) -> Result<u64, Error> {
    walk_locations_with(lists, offset, |_| {})
}

#[inline(always)]
fn walked_sum<'a, E: Order>(
    lists: &Lists<'a, E>,
    sum: u64,
    entry: &LocationListEntry<Slice<'a, E>>,
) -> u64 {
    let (place, length) = (lists.place(entry), entry.data.0.len() as u64);
    (sum.wrapping_add(entry.range.begin) ^ entry.range.end).wrapping_add(place) ^ length
}

#[inline(always)]
fn walk_locations_with<'a, E: Order>(
    lists: &Lists<'a, E>,
    offset: u64,
    mut behind: impl FnMut(&mut LocListIter<Slice<'a, E>>),
) -> Result<u64, Error> {
    let mut walk = lists.open_locations(offset)?;
    let mut sum = 0u64;
    while let Some(entry) = walk.next()? {
        sum = walked_sum(lists, sum, &entry);
        behind(&mut walk);
    }
    Ok(sum)
}

/// The marks of a walk in plain Rust, and which is next.
struct Marks<W> {
    marks: [Option<W>; 8],
    next: u64,
}

impl<W> Marks<W> {
    fn new() -> Marks<W> {
        Marks { marks: [const { None }; 8], next: 0 }
    }

    /// gimli's walks have no `clone`. They own nothing, so that a copy is as good.
    #[inline(always)]
    fn copy(walk: &W) -> W {
        const { assert!(!std::mem::needs_drop::<W>()) };
        unsafe { std::ptr::read(walk) }
    }

    #[inline(always)]
    fn set(&mut self, number: u64, walk: &W) -> Option<()> {
        *self.marks.get_mut(number as usize)? = Some(Self::copy(walk));
        Some(())
    }

    #[inline(always)]
    fn stored(&self, number: u64) -> Option<W> {
        self.marks.get(number as usize)?.as_ref().map(Self::copy)
    }

    /// Sets a mark and returns to it, each time the next one.
    #[inline(always)]
    fn there_and_back(&mut self, walk: &mut W) {
        let number = black_box(self.next);
        self.next = (number + 1) % 8;
        self.set(number, walk).expect("a mark");
        *walk = black_box(&*self).stored(number).expect("a mark that is set");
    }
}

#[inline(never)]
pub fn mark_ranges<E: Order>(lists: &Lists<'_, E>, passes: u64) -> u64 {
    repeat!(passes, {
        let (lists, mut marks) = (black_box(lists), Marks::new());
        walk_ranges_with(lists, lists.offset, |walk| marks.there_and_back(walk))
            .unwrap_or_else(|error| refused(error))
    })
}

#[inline(never)]
pub fn mark_locations<E: Order>(lists: &Lists<'_, E>, passes: u64) -> u64 {
    repeat!(passes, {
        let (lists, mut marks) = (black_box(lists), Marks::new());
        walk_locations_with(lists, lists.offset, |walk| marks.there_and_back(walk))
            .unwrap_or_else(|error| refused(error))
    })
}

/// An entry by the code of its kind, 0 for a bare pair, and its numbers.
#[inline(always)]
fn range_numbers(entry: RawRngListEntry<usize>) -> (u64, u64, u64) {
    use RawRngListEntry as E;
    match entry {
        E::AddressOrOffsetPair { begin, end } => (0, begin, end),
        E::BaseAddressx { addr } => (1, addr.0 as u64, 0),
        E::StartxEndx { begin, end } => (2, begin.0 as u64, end.0 as u64),
        E::StartxLength { begin, length } => (3, begin.0 as u64, length),
        E::OffsetPair { begin, end } => (4, begin, end),
        E::BaseAddress { addr } => (5, addr, 0),
        E::StartEnd { begin, end } => (6, begin, end),
        E::StartLength { begin, length } => (7, begin, length),
    }
}

/// And its expression.
#[inline(always)]
fn location_numbers<R: Reader<Offset = usize>>(
    entry: RawLocListEntry<R>,
) -> (u64, u64, u64, Option<Expression<R>>) {
    use RawLocListEntry as E;
    match entry {
        E::AddressOrOffsetPair { begin, end, data } => (0, begin, end, Some(data)),
        E::BaseAddressx { addr } => (1, addr.0 as u64, 0, None),
        E::StartxEndx { begin, end, data } => (2, begin.0 as u64, end.0 as u64, Some(data)),
        E::StartxLength { begin, length, data } => (3, begin.0 as u64, length, Some(data)),
        E::OffsetPair { begin, end, data } => (4, begin, end, Some(data)),
        E::DefaultLocation { data } => (5, 0, 0, Some(data)),
        E::BaseAddress { addr } => (6, addr, 0, None),
        E::StartEnd { begin, end, data } => (7, begin, end, Some(data)),
        E::StartLength { begin, length, data } => (8, begin, length, Some(data)),
    }
}

/// The raw `next` has no loop of its own, as the other has. Here is one more around
/// it, so that all of gimli's readers are inlined as well.
#[inline(never)]
pub fn raw_ranges<E: Order>(lists: &Lists<'_, E>, passes: u64) -> u64 {
    let once = |lists| raw_ranges_once(lists).unwrap_or_else(|error| refused(error));
    repeat!(1, repeat!(passes, once(black_box(lists))))
}

#[inline(always)]
fn raw_ranges_once<E: Order>(lists: &Lists<'_, E>) -> Result<u64, Error> {
    let mut walk = lists.open_raw_ranges()?;
    let mut sum = 0u64;
    while let Some(entry) = walk.next()? {
        let (kind, first, second) = range_numbers(entry);
        sum = raw_sum(sum, kind, first, second);
    }
    Ok(sum)
}

#[inline(never)]
pub fn raw_locations<E: Order>(lists: &Lists<'_, E>, passes: u64) -> u64 {
    let once = |lists| raw_locations_once(lists).unwrap_or_else(|error| refused(error));
    repeat!(1, repeat!(passes, once(black_box(lists))))
}

#[inline(always)]
fn raw_locations_once<E: Order>(lists: &Lists<'_, E>) -> Result<u64, Error> {
    let mut walk = lists.open_raw_locations()?;
    let mut sum = 0u64;
    while let Some(entry) = walk.next()? {
        let (kind, first, second, expression) = location_numbers(entry);
        sum = raw_sum(sum, kind, first, second);
        if let Some(expression) = expression {
            sum = sum.wrapping_add(lists.place_of(&expression)) ^ expression.0.len() as u64;
        }
    }
    Ok(sum)
}

/// The bytes of a list from an entry on, and how long addresses are; 0 where the
/// list's entries are bare pairs, which have no LEB128 number.
struct Beside<'a> {
    bytes: &'a [u8],
    address: usize,
}

impl<'a> Beside<'a> {
    #[inline(always)]
    fn new<E: Order>(lists: &Lists<'a, E>) -> Beside<'a> {
        let bare = lists.encoding.version <= 4 && !lists.split;
        let address = if bare { 0 } else { lists.encoding.address_size.into() };
        Beside { bytes: &lists.section[lists.offset as usize..], address }
    }

    #[inline(always)]
    fn skip(&mut self, count: usize) {
        self.bytes = self.bytes.get(count..).unwrap_or_default();
    }

    /// Whether a number goes on where its shortest form would end.
    #[inline(always)]
    fn number(&mut self, value: u64) -> bool {
        let length = uleb128_length(value);
        let goes_on = self.bytes.get(length - 1).is_some_and(|byte| byte & 0x80 != 0);
        self.skip(length);
        goes_on
    }

    /// Whether some number is padded of an entry by the code of its range kind, 8 for a
    /// default location.
    #[inline(always)]
    fn entry(&mut self, kind: u64, first: u64, second: u64) -> bool {
        self.skip(1);
        match kind {
            1 => self.number(first),
            2..=4 => self.number(first) || self.number(second),
            5 | 6 => {
                self.skip(self.address * (kind - 4) as usize);
                false
            }
            7 => {
                self.skip(self.address);
                self.number(second)
            }
            _ => false,
        }
    }

    /// The same of its expression's length.
    #[inline(always)]
    fn expression(&mut self, length: usize) -> bool {
        let padded = self.number(length as u64);
        self.skip(length);
        padded
    }
}

/// Which of 16 and 17 an entry breaks that yields nothing; another base address is
/// kept.
#[inline(always)]
fn breaks<E: Order>(
    lists: &Lists<'_, E>,
    base: &mut u64,
    (kind, first, second): (u64, u64, u64),
) -> Result<Option<u8>, Error> {
    let size = lists.encoding.address_size;
    let look = |index: u64| {
        lists.table.get_address(size, lists.table_base, DebugAddrIndex(index as usize))
    };
    let bound = min_tombstone(size);
    let sum = |address, length| wrapping_add_sized(address, length, size);
    let (begin, end) = match kind {
        1 => {
            *base = look(first)?;
            return Ok(None);
        }
        5 => {
            *base = first;
            return Ok(None);
        }
        0 | 4 if *base >= bound => return Ok(Some(16)),
        0 | 4 => (sum(*base, first), sum(*base, second)),
        2 => (look(first)?, look(second)?),
        3 => {
            let begin = look(first)?;
            (begin, sum(begin, second))
        }
        6 => (first, second),
        7 => (first, sum(first, second)),
        _ => return Ok(None),
    };
    Ok(match begin {
        begin if begin >= bound => Some(16),
        begin if begin > end => Some(17),
        _ => None,
    })
}

fn broken(number: u8) -> ! {
    panic!("the profile is broken: {number}")
}

#[inline(never)]
pub fn profile_ranges<E: Order>(lists: &Lists<'_, E>, passes: u64) -> u64 {
    let once = |lists| profile_ranges_once(lists).unwrap_or_else(|error| refused(error));
    repeat!(1, repeat!(passes, once(black_box(lists))))
}

#[inline(always)]
fn profile_ranges_once<E: Order>(lists: &Lists<'_, E>) -> Result<u64, Error> {
    let mut walk = lists.open_ranges(lists.offset)?;
    let (mut beside, mut base, mut sum) = (Beside::new(lists), lists.base_address, 0u64);
    while let Some(raw) = walk.next_raw()? {
        let numbers = range_numbers(raw.clone());
        if beside.address > 0 && beside.entry(numbers.0, numbers.1, numbers.2) {
            broken(15);
        }
        if let Some(range) = walk.convert_raw(raw)? {
            sum = sum.wrapping_add(range.begin) ^ range.end;
        } else if let Some(number) = breaks(lists, &mut base, numbers)? {
            broken(number);
        }
    }
    Ok(sum)
}

#[inline(never)]
pub fn profile_locations<E: Order>(lists: &Lists<'_, E>, passes: u64) -> u64 {
    let once = |lists| profile_locations_once(lists).unwrap_or_else(|error| refused(error));
    repeat!(1, repeat!(passes, once(black_box(lists))))
}

#[inline(always)]
fn profile_locations_once<E: Order>(lists: &Lists<'_, E>) -> Result<u64, Error> {
    let mut walk = lists.open_locations(lists.offset)?;
    let (mut beside, mut base, mut sum) = (Beside::new(lists), lists.base_address, 0u64);
    while let Some(raw) = walk.next_raw()? {
        let (kind, first, second, expression) = location_numbers(raw.clone());
        let kind = [0, 1, 2, 3, 4, 8, 5, 6, 7][kind as usize];
        let length = expression.map(|expression| expression.0.len());
        let padded = |beside: &mut Beside| {
            beside.entry(kind, first, second)
                || length.is_some_and(|length| beside.expression(length))
        };
        if beside.address > 0 && padded(&mut beside) {
            broken(15);
        }
        if let Some(entry) = walk.convert_raw(raw)? {
            sum = walked_sum(lists, sum, &entry);
        } else if let Some(number) = breaks(lists, &mut base, (kind, first, second))? {
            broken(number);
        }
    }
    Ok(sum)
}

/// A row's section as gimli's reader.
pub fn section<E: Order>(row: &Row) -> Slice<'_, E> {
    EndianSlice::new(row.section, E::from(RunTimeEndian::Little))
}

#[inline(never)]
pub fn numbers<E: Order>(section: Slice<'_, E>, passes: u64) -> u64 {
    repeat!(passes, numbers_once(*black_box(&section)).unwrap_or_else(|error| refused(error)))
}

#[inline(always)]
fn numbers_once<E: Order>(mut rest: Slice<'_, E>) -> Result<u64, Error> {
    let mut sum = 0u64;
    while !rest.is_empty() {
        sum = sum.rotate_left(1) ^ rest.read_uleb128()?;
    }
    Ok(sum)
}

fn holds(range: &Range, address: u64) -> bool {
    range.begin <= address && address < range.end
}

#[inline(never)]
pub fn lookup_range<E: Order>(lists: &Lists<'_, E>, address: u64, passes: u64) -> u64 {
    repeat!(passes, {
        let lists = black_box(lists);
        lookup_range_once(lists, lists.offset, address)
    })
}

#[inline(always)]
pub fn lookup_range_once<E: Order>(lists: &Lists<'_, E>, offset: u64, address: u64) -> u64 {
    match find_range(lists, offset, address) {
        Ok(Some(range)) => range.begin ^ range.end,
        Ok(None) => 0,
        Err(error) => refused(error),
    }
}

#[inline(always)]
fn find_range<E: Order>(
    lists: &Lists<'_, E>,
    offset: u64,
    address: u64,
) -> Result<Option<Range>, Error> {
    let mut walk = lists.open_ranges(offset)?;
    while let Some(range) = walk.next()? {
        if holds(&range, address) {
            return Ok(Some(range));
        }
    }
    Ok(None)
}

#[inline(never)]
pub fn lookup_location<E: Order>(lists: &Lists<'_, E>, address: u64, passes: u64) -> u64 {
    repeat!(passes, {
        let lists = black_box(lists);
        lookup_location_once(lists, lists.offset, address)
    })
}

#[inline(always)]
pub fn lookup_location_once<E: Order>(lists: &Lists<'_, E>, offset: u64, address: u64) -> u64 {
    match find_location(lists, offset, address) {
        Ok(Some(entry)) => location_sum(lists, &entry),
        Ok(None) => 0,
        Err(error) => refused(error),
    }
}

#[inline(always)]
fn location_sum<'a, E: Order>(
    lists: &Lists<'a, E>,
    entry: &LocationListEntry<Slice<'a, E>>,
) -> u64 {
    let (place, length) = (lists.place(entry), entry.data.0.len() as u64);
    (entry.range.begin ^ entry.range.end).wrapping_add(place) ^ length
}

type FoundLocation<'a, E> = Result<Option<LocationListEntry<Slice<'a, E>>>, Error>;

#[inline(always)]
fn find_location<'a, E: Order>(
    lists: &Lists<'a, E>,
    offset: u64,
    address: u64,
) -> FoundLocation<'a, E> {
    let mut walk = lists.open_locations(offset)?;
    while let Some(entry) = walk.next()? {
        if holds(&entry.range, address) {
            return Ok(Some(entry));
        }
    }
    Ok(None)
}

/// A lookup for each address.
#[inline(never)]
pub fn each_range<E: Order>(lists: &Lists<'_, E>, addresses: &[u64], passes: u64) -> u64 {
    repeat!(passes, {
        let (lists, addresses) = (black_box(lists), black_box(addresses));
        let one = |&address| lookup_range_once(lists, lists.offset, address);
        stack_sum(addresses.iter().map(one))
    })
}

#[inline(never)]
pub fn each_location<E: Order>(lists: &Lists<'_, E>, addresses: &[u64], passes: u64) -> u64 {
    repeat!(passes, {
        let (lists, addresses) = (black_box(lists), black_box(addresses));
        let one = |&address| lookup_location_once(lists, lists.offset, address);
        stack_sum(addresses.iter().map(one))
    })
}

#[inline(never)]
pub fn lookup_past_defaults<E: Order>(lists: &Lists<'_, E>, address: u64, passes: u64) -> u64 {
    let once = |lists| match find_past_defaults(lists, address) {
        Ok(Some(entry)) => location_sum(lists, &entry),
        Ok(None) => 0,
        Err(error) => refused(error),
    };
    repeat!(1, repeat!(passes, once(black_box(lists))))
}

/// The scope's lookup by raw entries, which say what is a default location.
#[inline(always)]
fn find_past_defaults<'a, E: Order>(lists: &Lists<'a, E>, address: u64) -> FoundLocation<'a, E> {
    let mut walk = lists.open_locations(lists.offset)?;
    let mut default = None;
    while let Some(raw) = walk.next_raw()? {
        let is_default = matches!(raw, RawLocListEntry::DefaultLocation { .. });
        match walk.convert_raw(raw)? {
            Some(entry) if holds(&entry.range, address) => {
                if !is_default {
                    return Ok(Some(entry));
                }
                default.get_or_insert(entry);
            }
            _ => {}
        }
    }
    Ok(default)
}

#[inline(never)]
pub fn headers<E: Order>(lists: &Lists<'_, E>, passes: u64) -> u64 {
    repeat!(passes, headers_once(black_box(lists)).unwrap_or_else(|error| refused(error)))
}

/// A header is seen whole, as the port's call gives it.
#[inline(always)]
fn headers_once<E: Order>(lists: &Lists<'_, E>) -> Result<u64, Error> {
    let mut headers = lists.table.headers();
    let mut sum = 0u64;
    while let Some(header) = headers.next()? {
        let header = black_box(&header);
        sum = sum.wrapping_add(header.offset().0 as u64) ^ header.length() as u64;
    }
    Ok(sum)
}

/// gimli's walks by the ranges that they yield.
pub trait Yields {
    fn next_range(&mut self) -> Result<Option<Range>, Error>;
}

impl<E: Order> Yields for RngListIter<Slice<'_, E>> {
    #[inline(always)]
    fn next_range(&mut self) -> Result<Option<Range>, Error> {
        self.next()
    }
}

impl<E: Order> Yields for LocListIter<Slice<'_, E>> {
    #[inline(always)]
    fn next_range(&mut self) -> Result<Option<Range>, Error> {
        Ok(self.next()?.map(|entry| entry.range))
    }
}

/// How many entries a list yields: another caller of `next`.
#[inline(never)]
pub fn count_ranges(lists: &Lists<'_, RunTimeEndian>) -> u64 {
    let mut walk = lists.open_ranges(lists.offset).unwrap_or_else(|error| refused(error));
    let mut count = 0;
    while walk.next().unwrap_or_else(|error| refused(error)).is_some() {
        count += 1;
    }
    count
}

#[inline(never)]
pub fn count_headers(lists: &Lists<'_, RunTimeEndian>) -> u64 {
    let mut headers = lists.table.headers();
    let mut count = 0;
    while headers.next().unwrap_or_else(|error| refused(error)).is_some() {
        count += 1;
    }
    count
}

/// How many raw entries a list has, or numbers a section: another caller.
#[inline(never)]
pub fn count_raw_ranges(lists: &Lists<'_, SharedEntering>) -> u64 {
    let mut walk = lists.open_raw_ranges().unwrap_or_else(|error| refused(error));
    let mut count = 0;
    while walk.next().unwrap_or_else(|error| refused(error)).is_some() {
        count += 1;
    }
    count
}

#[inline(never)]
pub fn count_raw_locations(lists: &Lists<'_, SharedEntering>) -> u64 {
    let mut walk = lists.open_raw_locations().unwrap_or_else(|error| refused(error));
    let mut count = 0;
    while walk.next().unwrap_or_else(|error| refused(error)).is_some() {
        count += 1;
    }
    count
}

/// How many locations a list yields entry by entry: another caller.
#[inline(never)]
pub fn count_converted(lists: &Lists<'_, SharedChoosing>) -> u64 {
    let mut walk = lists.open_locations(lists.offset).unwrap_or_else(|error| refused(error));
    let mut count = 0;
    while let Some(raw) = walk.next_raw().unwrap_or_else(|error| refused(error)) {
        let converted = walk.convert_raw(raw).unwrap_or_else(|error| refused(error));
        count += u64::from(converted.is_some());
    }
    count
}

/// How many ranges, the same way.
#[inline(never)]
pub fn count_converted_ranges(lists: &Lists<'_, SharedChoosing>) -> u64 {
    let mut walk = lists.open_ranges(lists.offset).unwrap_or_else(|error| refused(error));
    let mut count = 0;
    while let Some(raw) = walk.next_raw().unwrap_or_else(|error| refused(error)) {
        let converted = walk.convert_raw(raw).unwrap_or_else(|error| refused(error));
        count += u64::from(converted.is_some());
    }
    count
}

#[inline(never)]
pub fn count_numbers(mut rest: Slice<'_, SharedNumbering>) -> u64 {
    let mut count = 0;
    while !rest.is_empty() {
        rest.read_uleb128().unwrap_or_else(|error| refused(error));
        count += 1;
    }
    count
}

#[inline(never)]
pub fn count_locations(lists: &Lists<'_, RunTimeEndian>) -> u64 {
    let mut walk = lists.open_locations(lists.offset).unwrap_or_else(|error| refused(error));
    let mut count = 0;
    while walk.next().unwrap_or_else(|error| refused(error)).is_some() {
        count += 1;
    }
    count
}
