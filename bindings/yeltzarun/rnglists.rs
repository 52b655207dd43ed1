//! Range lists.

use super::coverage::filled;
use super::ffi;
use super::kinds::calls::Whole;
use super::walk::{Table, Written};
use super::{
    CanonicalList, Coverage, DebugAddr, DebugAddrBase, DebugRanges, DebugRngLists,
    DebugRngListsBase, DebugRngListsIndex, DwarfKinds, Encoding, EndianSlice, KindTable, Kinds,
    Lookups, Noted, Range, RangeListsOffset, RawRngListEntry, Result,
};

/// The sections with range lists, and what the kinds of their entries are read by.
#[derive(Debug, Clone, Copy)]
pub struct RangeLists<'a, K = DwarfKinds> {
    debug_ranges: DebugRanges<'a>,
    debug_rnglists: DebugRngLists<'a>,
    kinds: K,
}

impl Default for RangeLists<'_> {
    fn default() -> Self {
        RangeLists::new(DebugRanges::default(), DebugRngLists::default())
    }
}

impl<'a> RangeLists<'a> {
    /// The two sections.
    pub fn new(debug_ranges: DebugRanges<'a>, debug_rnglists: DebugRngLists<'a>) -> RangeLists<'a> {
        RangeLists { debug_ranges, debug_rnglists, kinds: DwarfKinds }
    }
}

impl<'a, K: Kinds> RangeLists<'a, K> {
    /// The same sections, whose entries begin with a table's codes: every call and every walk is by the
    /// table. A code without a kind is refused with
    /// [`UnknownRangeListsEntry`](super::Error::UnknownRangeListsEntry) and that code. Bare pairs, up
    /// to version 4, have no codes and are read as ever. A canonical list made by a table has DWARF's
    /// own numbers.
    pub fn with_kinds(self, kinds: &'a KindTable) -> RangeLists<'a, &'a KindTable> {
        let RangeLists { debug_ranges, debug_rnglists, .. } = self;
        RangeLists { debug_ranges, debug_rnglists, kinds }
    }

    /// `.debug_ranges`.
    pub fn debug_ranges(&self) -> &DebugRanges<'a> {
        &self.debug_ranges
    }

    /// `.debug_rnglists`.
    pub fn debug_rnglists(&self) -> &DebugRngLists<'a> {
        &self.debug_rnglists
    }

    fn written(&self, encoding: Encoding) -> Written<'a> {
        Written::by_version(self.debug_ranges.section, self.debug_rnglists.section, encoding)
    }

    /// The list at an offset, and the address table that it is read with.
    fn whole(
        &self,
        offset: RangeListsOffset,
        encoding: Encoding,
        base_address: u64,
        debug_addr: &DebugAddr<'a>,
        debug_addr_base: DebugAddrBase,
    ) -> Result<Whole<'a>> {
        let list = self.written(encoding);
        let table = list.table(debug_addr, debug_addr_base)?;
        Ok(Whole { list, table, offset: offset.0, base_address })
    }

    /// A walk over the ranges of the list at an offset.
    pub fn ranges(
        &self,
        offset: RangeListsOffset,
        unit_encoding: Encoding,
        base_address: u64,
        debug_addr: &DebugAddr<'a>,
        debug_addr_base: DebugAddrBase,
    ) -> Result<RngListIter<'a, K>> {
        let Whole { list, table, .. } =
            self.whole(offset, unit_encoding, base_address, debug_addr, debug_addr_base)?;
        let raw = RawRngListIter::open(list, self.kinds, offset, base_address)?;
        Ok(RngListIter { raw, table })
    }

    /// A walk over the entries of the list at an offset as they are written.
    pub fn raw_ranges(
        &self,
        offset: RangeListsOffset,
        unit_encoding: Encoding,
    ) -> Result<RawRngListIter<'a, K>> {
        RawRngListIter::open(self.written(unit_encoding), self.kinds, offset, 0)
    }

    /// The offset that an index has in the table at a base of `.debug_rnglists`. A row past the
    /// table's end reads what follows in the section.
    pub fn get_offset(
        &self,
        unit_encoding: Encoding,
        base: DebugRngListsBase,
        index: DebugRngListsIndex,
    ) -> Result<RangeListsOffset> {
        let EndianSlice { section: s, endian, .. } = self.debug_rnglists.section;
        let encoding = unit_encoding.in_order(endian);
        // SAFETY: pointer and length are of one slice.
        let answer =
            unsafe { ffi::yz_range_get_offset(s.as_ptr(), s.len(), base.0, encoding, index.0) };
        answer.done().map(RangeListsOffset)
    }

    /// The first range that holds an address.
    pub fn lookup(
        &self,
        offset: RangeListsOffset,
        unit_encoding: Encoding,
        base_address: u64,
        debug_addr: &DebugAddr<'a>,
        debug_addr_base: DebugAddrBase,
        address: u64,
    ) -> Result<Option<Range>> {
        let whole = self.whole(offset, unit_encoding, base_address, debug_addr, debug_addr_base)?;
        let answer = self.kinds.lookup(whole, address);
        Ok(answer.done_unless(ffi::NOT_THERE)?.map(Range::of))
    }

    /// The first range that holds each of several addresses, in one reading of the list. An address has
    /// the answer that [`lookup`](RangeLists::lookup) gives it, refusals included, and what none of
    /// them needs isn't read.
    ///
    /// They ascend, and some may be equal. [`TooManyAddresses`](super::Error::TooManyAddresses) for more
    /// than [`MOST_ADDRESSES`](super::MOST_ADDRESSES), then
    /// [`DescendingAddresses`](super::Error::DescendingAddresses), both before the list is opened. What
    /// opening is refused with is the answer of each address; without addresses nothing is opened.
    ///
    /// ```
    /// use yeltzarun::*;
    ///
    /// // 0x10 to 0x20, 0x30 to 0x40, and a kind that there is none of.
    /// let list = [7, 0x10, 0, 0, 0, 0x10, 7, 0x30, 0, 0, 0, 0x10, 8];
    /// let section = DebugRngLists::new(&list, RunTimeEndian::Little);
    /// let lists = RangeLists::new(DebugRanges::default(), section);
    /// let encoding = Encoding { address_size: 4, format: Format::Dwarf32, version: 5 };
    /// let (offset, table, base) = (RangeListsOffset(0), DebugAddr::default(), DebugAddrBase(0));
    /// let lookups = |addresses: &[u64]| lists.lookups(offset, encoding, 0, &table, base, addresses);
    ///
    /// let (first, second) = (Range { begin: 0x10, end: 0x20 }, Range { begin: 0x30, end: 0x40 });
    /// let refused = Err(Error::UnknownRangeListsEntry(8));
    /// let three = lookups(&[0x10, 0x20, 0x35])?;
    /// assert_eq!(three.found, [Ok(Some(first)), refused, Ok(Some(second))]);
    /// assert_eq!(three.entries, 2);
    /// // Behind the last range that is asked for nothing is read.
    /// assert_eq!(lookups(&[0x10, 0x1f])?, Lookups { found: vec![Ok(Some(first)); 2], entries: 1 });
    /// assert_eq!(lookups(&[0x35, 0x10]), Err(Error::DescendingAddresses));
    /// # Ok::<(), Error>(())
    /// ```
    pub fn lookups(
        &self,
        offset: RangeListsOffset,
        unit_encoding: Encoding,
        base_address: u64,
        debug_addr: &DebugAddr<'a>,
        debug_addr_base: DebugAddrBase,
        addresses: &[u64],
    ) -> Result<Lookups<Range>> {
        let whole = self.whole(offset, unit_encoding, base_address, debug_addr, debug_addr_base)?;
        Lookups::made(
            addresses,
            |found| self.kinds.lookups(whole, addresses, found),
            |ffi::Location { begin, end, .. }| Range { begin, end },
        )
    }

    /// The addresses that the list at an offset covers.
    pub fn coverage(
        &self,
        offset: RangeListsOffset,
        unit_encoding: Encoding,
        base_address: u64,
        debug_addr: &DebugAddr<'a>,
        debug_addr_base: DebugAddrBase,
    ) -> Result<Coverage> {
        let whole = self.whole(offset, unit_encoding, base_address, debug_addr, debug_addr_base)?;
        // SAFETY: a call that is done writes all places.
        unsafe { Coverage::made(|begins, ends| self.kinds.coverage(whole, begins, ends)) }
    }

    /// The ranges of the coverage of the list at an offset, put at the front of two slices, and how
    /// many there are; [`LIMIT`](super::LIMIT) places are always enough. Places past the count are
    /// left as they were. Last of all refusals, [`NoSpace`](super::Error::NoSpace) where a slice is
    /// shorter than the number of ranges; a refused call writes nothing. To clear the arrays of a
    /// [`Coverage`] costs 48 KB for every list; here one of few ranges pays for these alone.
    #[allow(clippy::too_many_arguments)]
    pub fn runs(
        &self,
        offset: RangeListsOffset,
        unit_encoding: Encoding,
        base_address: u64,
        debug_addr: &DebugAddr<'a>,
        debug_addr_base: DebugAddrBase,
        begins: &mut [u64],
        ends: &mut [u64],
    ) -> Result<usize> {
        let whole = self.whole(offset, unit_encoding, base_address, debug_addr, debug_addr_base)?;
        self.kinds.runs(whole, begins, ends).done().map(|count| count as usize)
    }

    /// The canonical list of the list at an offset, written into an output;
    /// [`CANONICAL_MAX`](super::CANONICAL_MAX) bytes are always enough.
    pub fn canonical<'o>(
        &self,
        offset: RangeListsOffset,
        unit_encoding: Encoding,
        base_address: u64,
        debug_addr: &DebugAddr<'a>,
        debug_addr_base: DebugAddrBase,
        output: &'o mut [u8],
    ) -> Result<CanonicalList<'o>> {
        let whole = self.whole(offset, unit_encoding, base_address, debug_addr, debug_addr_base)?;
        // SAFETY: pointer and length are of the output, which is lent alone.
        let bytes = filled(output, |o, m| unsafe { self.kinds.canonical(whole, o, m) })?;
        Ok(CanonicalList::new(bytes))
    }
}

/// A walk over the entries of a range list as they are written.
#[derive(Debug, Clone)]
pub struct RawRngListIter<'a, K = DwarfKinds> {
    list: Written<'a>,
    kinds: K,
    pub(super) walk: ffi::Walk,
}

impl<'a, K: Kinds> RawRngListIter<'a, K> {
    fn open(
        list: Written<'a>,
        kinds: K,
        offset: RangeListsOffset,
        base_address: u64,
    ) -> Result<RawRngListIter<'a, K>> {
        let (l, mut walk) = (list, ffi::Walk::default());
        // SAFETY: pointer and length are of one slice.
        let answer = unsafe {
            ffi::yz_range_open(l.ptr(), l.len(), l.encoding, offset.0, base_address, &mut walk)
        };
        answer.done()?;
        Ok(RawRngListIter { list, kinds, walk })
    }

    /// The next entry; after a refusal the list is over.
    #[allow(clippy::should_implement_trait)]
    pub fn next(&mut self) -> Result<Option<RawRngListEntry>> {
        Ok(self.next_noted()?.map(|noted| noted.entry))
    }

    /// The same, and whether some LEB128 number of the entry is padded.
    pub fn next_noted(&mut self) -> Result<Option<Noted<RawRngListEntry>>> {
        let answer = self.kinds.next_raw(self.list, &mut self.walk);
        let Some(ffi::RawRange { entry, padded }) = answer.done_unless(ffi::END)? else {
            return Ok(None);
        };
        Ok(Some(Noted { entry: RawRngListEntry::of(entry)?, padded: padded != 0 }))
    }

    /// Where the walk stands in its section: behind the entry read last, or at the section's end.
    pub fn place(&self) -> u64 {
        self.walk.at
    }

    /// How many entries the walk has read since it was opened, the end mark among them; a refused
    /// entry isn't read.
    pub fn entries(&self) -> u64 {
        self.walk.entries
    }
}

/// A walk over the ranges of a range list.
#[derive(Debug, Clone)]
pub struct RngListIter<'a, K = DwarfKinds> {
    pub(super) raw: RawRngListIter<'a, K>,
    table: Table<'a>,
}

impl<K: Kinds> RngListIter<'_, K> {
    /// The next range. After a failed lookup in the address table the walk goes on with the
    /// following entry; after any other refusal the list is over.
    #[allow(clippy::should_implement_trait)]
    pub fn next(&mut self) -> Result<Option<Range>> {
        let raw = &mut self.raw;
        let answer = raw.kinds.next(raw.list, self.table, &mut raw.walk);
        Ok(answer.done_unless(ffi::END)?.map(Range::of))
    }

    /// The next range in the profile, for the lists of a compiler that is held to write no padded numbers,
    /// no tombstones and no backward ranges. It is what [`next`](RngListIter::next) answers, refusals too,
    /// until one of three things is met: [`PaddedNumber`](super::Error::PaddedNumber) for an entry that is
    /// read whole and has a padded LEB128 number, before any address is looked up; when its lookups have
    /// succeeded, [`Tombstone`](super::Error::Tombstone) for a begin at or above the tombstone bound, or
    /// for the base address of an offset pair; then [`BackwardRange`](super::Error::BackwardRange) for a
    /// begin above the end. After each of them the list is over, and the entry counts.
    ///
    /// It is the walk of `next`, and both calls may be mixed.
    ///
    /// ```
    /// use yeltzarun::*;
    ///
    /// // 0x10 to 0x11, an empty range, and one from 0x20 back to 0x10, all of them start and end.
    /// let list = [6, 0x10, 0x11, 6, 0x10, 0x10, 6, 0x20, 0x10, 0];
    /// let section = DebugRngLists::new(&list, RunTimeEndian::Little);
    /// let lists = RangeLists::new(DebugRanges::default(), section);
    /// let encoding = Encoding { address_size: 1, format: Format::Dwarf32, version: 5 };
    /// let (offset, table, base) = (RangeListsOffset(0), DebugAddr::default(), DebugAddrBase(0));
    /// let mut walk = lists.ranges(offset, encoding, 0, &table, base)?;
    ///
    /// let first = Range { begin: 0x10, end: 0x11 };
    /// assert_eq!(walk.clone().collect::<Vec<_>>(), [Ok(first)]);
    /// let all: Vec<_> = walk.in_profile().collect();
    /// assert_eq!(all, [Ok(first), Err(Error::BackwardRange)]);
    /// assert_eq!(walk.entries(), 3); // The entry that is at fault.
    /// # Ok::<(), Error>(())
    /// ```
    pub fn next_in_profile(&mut self) -> Result<Option<Range>> {
        let raw = &mut self.raw;
        let answer = raw.kinds.next_in_profile(raw.list, self.table, &mut raw.walk);
        Ok(answer.done_unless(ffi::END)?.map(Range::of))
    }

    /// The next entry as it is written.
    pub fn next_raw(&mut self) -> Result<Option<RawRngListEntry>> {
        self.raw.next()
    }

    /// The same, and whether some LEB128 number of the entry is padded.
    pub fn next_raw_noted(&mut self) -> Result<Option<Noted<RawRngListEntry>>> {
        self.raw.next_noted()
    }

    /// Where the walk stands in its section: behind the entry read last, or at the section's end.
    pub fn place(&self) -> u64 {
        self.raw.place()
    }

    /// How many entries the walk has read since it was opened: the number of the entry that the
    /// last range is of, counted from 1. Entries count that come to no range or whose lookup in
    /// the address table fails, the end mark, and one that only the profile refuses; an entry that is
    /// refused otherwise isn't read, and `convert_raw` reads none.
    pub fn entries(&self) -> u64 {
        self.raw.entries()
    }

    /// What an entry comes to: a range, or none. The walk's base address may change.
    pub fn convert_raw(&mut self, raw_range: RawRngListEntry) -> Result<Option<Range>> {
        let (l, t, walk) = (self.raw.list, self.table, &mut self.raw.walk);
        let entry = raw_range.entry();
        // SAFETY: pointer and length are of one slice.
        let answer =
            unsafe { ffi::yz_range_convert_raw(t.ptr(), t.len(), t.base, l.encoding, entry, walk) };
        Ok(answer.done_unless(ffi::NOTHING)?.map(Range::of))
    }
}
