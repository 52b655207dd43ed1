//! Location lists, plain and split.

use super::coverage::filled;
use super::ffi;
use super::walk::{Table, Written};
use super::{
    CanonicalList, Coverage, DebugAddr, DebugAddrBase, DebugLoc, DebugLocLists, DebugLocListsBase,
    DebugLocListsIndex, DwarfFileType, Encoding, EndianSlice, LocationListEntry,
    LocationListsOffset, Lookups, Noted, Range, RawLocListEntry, Result,
};

/// The sections with location lists.
#[derive(Debug, Default, Clone, Copy)]
pub struct LocationLists<'a> {
    debug_loc: DebugLoc<'a>,
    debug_loclists: DebugLocLists<'a>,
}

impl<'a> LocationLists<'a> {
    /// The two sections.
    pub fn new(debug_loc: DebugLoc<'a>, debug_loclists: DebugLocLists<'a>) -> LocationLists<'a> {
        LocationLists { debug_loc, debug_loclists }
    }

    fn written(&self, encoding: Encoding) -> Written<'a> {
        Written::by_version(self.debug_loc.section, self.debug_loclists.section, encoding)
    }

    /// A walk over the locations of the list at an offset.
    pub fn locations(
        &self,
        offset: LocationListsOffset,
        unit_encoding: Encoding,
        base_address: u64,
        debug_addr: &DebugAddr<'a>,
        debug_addr_base: DebugAddrBase,
    ) -> Result<LocListIter<'a>> {
        let list = self.written(unit_encoding);
        let table = list.table(debug_addr, debug_addr_base)?;
        let raw = RawLocListIter::open(list, DwarfFileType::Main, offset, base_address)?;
        Ok(LocListIter { raw, table })
    }

    /// The same for a section of a .dwo file.
    pub fn locations_dwo(
        &self,
        offset: LocationListsOffset,
        unit_encoding: Encoding,
        base_address: u64,
        debug_addr: &DebugAddr<'a>,
        debug_addr_base: DebugAddrBase,
    ) -> Result<LocListIter<'a>> {
        let list = self.written(unit_encoding);
        let table = list.table(debug_addr, debug_addr_base)?;
        let raw = RawLocListIter::open(list, DwarfFileType::Dwo, offset, base_address)?;
        Ok(LocListIter { raw, table })
    }

    /// A walk over the entries of the list at an offset as they are written.
    pub fn raw_locations(
        &self,
        offset: LocationListsOffset,
        unit_encoding: Encoding,
    ) -> Result<RawLocListIter<'a>> {
        RawLocListIter::open(self.written(unit_encoding), DwarfFileType::Main, offset, 0)
    }

    /// The same for a section of a .dwo file.
    pub fn raw_locations_dwo(
        &self,
        offset: LocationListsOffset,
        unit_encoding: Encoding,
    ) -> Result<RawLocListIter<'a>> {
        RawLocListIter::open(self.written(unit_encoding), DwarfFileType::Dwo, offset, 0)
    }

    /// The offset that an index has in the table at a base of `.debug_loclists`. A row past the
    /// table's end reads what follows in the section.
    pub fn get_offset(
        &self,
        unit_encoding: Encoding,
        base: DebugLocListsBase,
        index: DebugLocListsIndex,
    ) -> Result<LocationListsOffset> {
        let EndianSlice { section: s, endian, .. } = self.debug_loclists.section;
        let encoding = unit_encoding.in_order(endian);
        // SAFETY: pointer and length are of one slice.
        let answer =
            unsafe { ffi::yz_location_get_offset(s.as_ptr(), s.len(), base.0, encoding, index.0) };
        answer.done().map(LocationListsOffset)
    }

    /// The location of the first bounded entry that holds an address; where the list has ended without
    /// one, at its end mark or the section's end, that of the first default location. Bounded is every
    /// entry but [`RawLocListEntry::DefaultLocation`], one from 0 to 2^64 - 1, too. A default location has
    /// that range here as in a walk, and does not hold 2^64 - 1.
    ///
    /// What is refused before the bounded entry is the answer, behind a default location, too, and so
    /// is a failed lookup in the address table. What follows the bounded entry isn't read.
    ///
    /// ```
    /// use yeltzarun::*;
    ///
    /// // A default location, and one from 0x10 to 0x20 behind it.
    /// let list = [5, 1, 0x50, 7, 0x10, 0, 0, 0, 0x20, 0, 0, 0, 1, 0x51, 0];
    /// let section = DebugLocLists::new(&list, RunTimeEndian::Little);
    /// let lists = LocationLists::new(DebugLoc::default(), section);
    /// let encoding = Encoding { address_size: 4, format: Format::Dwarf32, version: 5 };
    /// let (offset, main) = (LocationListsOffset(0), DwarfFileType::Main);
    /// let (table, base) = (DebugAddr::default(), DebugAddrBase(0));
    /// let lookup = |address| lists.lookup(offset, encoding, main, 0, &table, base, address);
    ///
    /// let own = lookup(0x10)?.unwrap();
    /// assert_eq!((own.range, own.data.bytes()), (Range { begin: 0x10, end: 0x20 }, &[0x51][..]));
    /// let default = lookup(0x20)?.unwrap();
    /// assert_eq!(default.range, Range { begin: 0, end: u64::MAX });
    /// assert_eq!(default.data.bytes(), [0x50]);
    /// assert_eq!(lookup(u64::MAX)?, None);
    /// # Ok::<(), Error>(())
    /// ```
    #[allow(clippy::too_many_arguments)]
    pub fn lookup(
        &self,
        offset: LocationListsOffset,
        unit_encoding: Encoding,
        file_type: DwarfFileType,
        base_address: u64,
        debug_addr: &DebugAddr<'a>,
        debug_addr_base: DebugAddrBase,
        address: u64,
    ) -> Result<Option<LocationListEntry<'a>>> {
        let l = self.written(unit_encoding);
        let t = l.table(debug_addr, debug_addr_base)?;
        // SAFETY: each pointer and length are of one slice.
        let answer = unsafe {
            ffi::yz_location_lookup(
                l.ptr(),
                l.len(),
                t.ptr(),
                t.len(),
                t.base,
                l.encoding,
                file_type.number(),
                offset.0,
                base_address,
                address,
            )
        };
        let found = answer.done_unless(ffi::NOT_THERE)?;
        Ok(found.map(|location| LocationListEntry::of(l.section, location)))
    }

    /// The location of each of several addresses, in one reading of the list. An address has the answer
    /// that [`lookup`](LocationLists::lookup) gives it, refusals included, and what none of them needs
    /// isn't read.
    ///
    /// They ascend, and some may be equal. [`TooManyAddresses`](super::Error::TooManyAddresses) for more
    /// than [`MOST_ADDRESSES`](super::MOST_ADDRESSES), then
    /// [`DescendingAddresses`](super::Error::DescendingAddresses), both before the list is opened. What
    /// opening is refused with is the answer of each address; without addresses nothing is opened.
    ///
    /// ```
    /// use yeltzarun::*;
    ///
    /// // A default location, and one from 0x10 to 0x20 behind it.
    /// let list = [5, 1, 0x50, 7, 0x10, 0, 0, 0, 0x20, 0, 0, 0, 1, 0x51, 0];
    /// let section = DebugLocLists::new(&list, RunTimeEndian::Little);
    /// let lists = LocationLists::new(DebugLoc::default(), section);
    /// let encoding = Encoding { address_size: 4, format: Format::Dwarf32, version: 5 };
    /// let (offset, main) = (LocationListsOffset(0), DwarfFileType::Main);
    /// let (table, base) = (DebugAddr::default(), DebugAddrBase(0));
    ///
    /// let addresses = [0, 0x10, 0x20, u64::MAX];
    /// let four = lists.lookups(offset, encoding, main, 0, &table, base, &addresses)?;
    /// let mut told = Vec::new();
    /// for found in four.found {
    ///     told.push(found?.map(|location| (location.range.begin, location.data.bytes())));
    /// }
    /// assert_eq!(told, [Some((0, &[0x50][..])), Some((0x10, &[0x51])), Some((0, &[0x50])), None]);
    /// assert_eq!(four.entries, 3); // The end mark is one, too.
    /// # Ok::<(), Error>(())
    /// ```
    #[allow(clippy::too_many_arguments)]
    pub fn lookups(
        &self,
        offset: LocationListsOffset,
        unit_encoding: Encoding,
        file_type: DwarfFileType,
        base_address: u64,
        debug_addr: &DebugAddr<'a>,
        debug_addr_base: DebugAddrBase,
        addresses: &[u64],
    ) -> Result<Lookups<LocationListEntry<'a>>> {
        let l = self.written(unit_encoding);
        let t = l.table(debug_addr, debug_addr_base)?;
        Lookups::made(
            addresses,
            // SAFETY: each pointer and length are of one slice, and the places are lent alone.
            |found| unsafe {
                ffi::yz_location_lookups(
                    l.ptr(),
                    l.len(),
                    t.ptr(),
                    t.len(),
                    t.base,
                    l.encoding,
                    file_type.number(),
                    offset.0,
                    base_address,
                    addresses.as_ptr(),
                    addresses.len(),
                    found,
                )
            },
            |location| LocationListEntry::of(l.section, location),
        )
    }

    /// The addresses that the list at an offset covers.
    pub fn coverage(
        &self,
        offset: LocationListsOffset,
        unit_encoding: Encoding,
        file_type: DwarfFileType,
        base_address: u64,
        debug_addr: &DebugAddr<'a>,
        debug_addr_base: DebugAddrBase,
    ) -> Result<Coverage> {
        let l = self.written(unit_encoding);
        let t = l.table(debug_addr, debug_addr_base)?;
        // SAFETY: each pointer and length are of one slice; a call that is done writes all places.
        unsafe {
            Coverage::made(|begins, ends| {
                ffi::yz_location_coverage(
                    l.ptr(),
                    l.len(),
                    t.ptr(),
                    t.len(),
                    t.base,
                    l.encoding,
                    file_type.number(),
                    offset.0,
                    base_address,
                    begins,
                    ends,
                )
            })
        }
    }

    /// The ranges of the coverage of the list at an offset, put at the front of two slices, and how
    /// many there are; [`LIMIT`](super::LIMIT) places are always enough. Places past the count are
    /// left as they were. Last of all refusals, [`NoSpace`](super::Error::NoSpace) where a slice is
    /// shorter than the number of ranges; a refused call writes nothing. To clear the arrays of a
    /// [`Coverage`] costs 48 KB for every list; here one of few ranges pays for these alone.
    #[allow(clippy::too_many_arguments)]
    pub fn runs(
        &self,
        offset: LocationListsOffset,
        unit_encoding: Encoding,
        file_type: DwarfFileType,
        base_address: u64,
        debug_addr: &DebugAddr<'a>,
        debug_addr_base: DebugAddrBase,
        begins: &mut [u64],
        ends: &mut [u64],
    ) -> Result<usize> {
        let l = self.written(unit_encoding);
        let t = l.table(debug_addr, debug_addr_base)?;
        // SAFETY: each pointer and length are of one slice, and begins and ends are lent alone.
        let answer = unsafe {
            ffi::yz_location_runs(
                l.ptr(),
                l.len(),
                t.ptr(),
                t.len(),
                t.base,
                l.encoding,
                file_type.number(),
                offset.0,
                base_address,
                begins.as_mut_ptr(),
                begins.len(),
                ends.as_mut_ptr(),
                ends.len(),
            )
        };
        answer.done().map(|count| count as usize)
    }

    /// The canonical list of the list at an offset, written into an output;
    /// [`CANONICAL_MAX`](super::CANONICAL_MAX) bytes are always enough.
    #[allow(clippy::too_many_arguments)]
    pub fn canonical<'o>(
        &self,
        offset: LocationListsOffset,
        unit_encoding: Encoding,
        file_type: DwarfFileType,
        base_address: u64,
        debug_addr: &DebugAddr<'a>,
        debug_addr_base: DebugAddrBase,
        output: &'o mut [u8],
    ) -> Result<CanonicalList<'o>> {
        let l = self.written(unit_encoding);
        let t = l.table(debug_addr, debug_addr_base)?;
        // SAFETY: each pointer and length are of one slice, and the output is lent alone.
        let bytes = filled(output, |o, m| unsafe {
            ffi::yz_location_canonical(
                l.ptr(),
                l.len(),
                t.ptr(),
                t.len(),
                t.base,
                l.encoding,
                file_type.number(),
                offset.0,
                base_address,
                o,
                m,
            )
        })?;
        Ok(CanonicalList::new(bytes))
    }
}

/// A walk over the entries of a location list as they are written.
#[derive(Debug, Clone)]
pub struct RawLocListIter<'a> {
    list: Written<'a>,
    pub(super) walk: ffi::Walk,
}

impl<'a> RawLocListIter<'a> {
    fn open(
        list: Written<'a>,
        file_type: DwarfFileType,
        offset: LocationListsOffset,
        base_address: u64,
    ) -> Result<RawLocListIter<'a>> {
        let (l, mut walk) = (list, ffi::Walk::default());
        // SAFETY: pointer and length are of one slice.
        let answer = unsafe {
            ffi::yz_location_open(
                l.ptr(),
                l.len(),
                l.encoding,
                file_type.number(),
                offset.0,
                base_address,
                &mut walk,
            )
        };
        answer.done()?;
        Ok(RawLocListIter { list, walk })
    }

    /// The next entry; after a refusal the list is over.
    #[allow(clippy::should_implement_trait)]
    pub fn next(&mut self) -> Result<Option<RawLocListEntry<'a>>> {
        Ok(self.next_noted()?.map(|noted| noted.entry))
    }

    /// The same, and whether some LEB128 number of the entry is padded.
    pub fn next_noted(&mut self) -> Result<Option<Noted<RawLocListEntry<'a>>>> {
        let l = self.list;
        // SAFETY: pointer and length are of one slice.
        let answer =
            unsafe { ffi::yz_location_next_raw(l.ptr(), l.len(), l.encoding, &mut self.walk) };
        let Some(ffi::RawLocation { entry, padded }) = answer.done_unless(ffi::END)? else {
            return Ok(None);
        };
        Ok(Some(Noted { entry: RawLocListEntry::of(l.section, entry)?, padded: padded != 0 }))
    }

    /// Where the walk stands in its section: behind the entry read last, or at the section's end.
    pub fn place(&self) -> u64 {
        self.walk.at
    }

    /// How many entries the walk has read since it was opened, the end mark among them; a refused
    /// entry isn't read.
    pub fn entries(&self) -> u64 {
        self.walk.entries
    }
}

/// A walk over the locations of a location list.
#[derive(Debug, Clone)]
pub struct LocListIter<'a> {
    pub(super) raw: RawLocListIter<'a>,
    table: Table<'a>,
}

impl<'a> LocListIter<'a> {
    /// The next location. After a failed lookup in the address table the walk goes on with the
    /// following entry; after any other refusal the list is over.
    #[allow(clippy::should_implement_trait)]
    pub fn next(&mut self) -> Result<Option<LocationListEntry<'a>>> {
        let (l, t, walk) = (self.raw.list, self.table, &mut self.raw.walk);
        // SAFETY: each pointer and length are of one slice.
        let answer = unsafe {
            ffi::yz_location_next(l.ptr(), l.len(), t.ptr(), t.len(), t.base, l.encoding, walk)
        };
        let next = answer.done_unless(ffi::END)?;
        Ok(next.map(|location| LocationListEntry::of(l.section, location)))
    }

    /// The next location in the profile, by the rules of
    /// [`RngListIter::next_in_profile`](super::RngListIter::next_in_profile). The length of an expression
    /// may be padded, too; a default location has no bounds that could be at fault.
    pub fn next_in_profile(&mut self) -> Result<Option<LocationListEntry<'a>>> {
        let (l, t, walk) = (self.raw.list, self.table, &mut self.raw.walk);
        let (at, len, base) = (t.ptr(), t.len(), t.base);
        // SAFETY: each pointer and length are of one slice.
        let answer = unsafe {
            ffi::yz_location_next_in_profile(l.ptr(), l.len(), at, len, base, l.encoding, walk)
        };
        let next = answer.done_unless(ffi::END)?;
        Ok(next.map(|location| LocationListEntry::of(l.section, location)))
    }

    /// The next entry as it is written.
    pub fn next_raw(&mut self) -> Result<Option<RawLocListEntry<'a>>> {
        self.raw.next()
    }

    /// The same, and whether some LEB128 number of the entry is padded.
    pub fn next_raw_noted(&mut self) -> Result<Option<Noted<RawLocListEntry<'a>>>> {
        self.raw.next_noted()
    }

    /// Where the walk stands in its section: behind the entry read last, or at the section's end.
    pub fn place(&self) -> u64 {
        self.raw.place()
    }

    /// How many entries the walk has read since it was opened: the number of the entry that the
    /// last location is of, counted from 1. Entries count that come to no location or whose lookup in
    /// the address table fails, the end mark, and one that only the profile refuses; an entry that is
    /// refused otherwise isn't read, and `convert_raw` reads none.
    pub fn entries(&self) -> u64 {
        self.raw.entries()
    }

    /// What an entry comes to: a location, or none. The walk's base address may change.
    pub fn convert_raw(
        &mut self,
        raw_loc: RawLocListEntry<'a>,
    ) -> Result<Option<LocationListEntry<'a>>> {
        let (l, t, walk) = (self.raw.list, self.table, &mut self.raw.walk);
        let (entry, data) = (raw_loc.entry(), raw_loc.data());
        // SAFETY: pointer and length are of one slice.
        let answer = unsafe {
            ffi::yz_location_convert_raw(t.ptr(), t.len(), t.base, l.encoding, entry, walk)
        };
        let converted = answer.done_unless(ffi::NOTHING)?;
        // The expression is handed on; it may be of another section than the walk's.
        Ok(converted.map(|ffi::Location { begin, end, .. }| LocationListEntry {
            range: Range { begin, end },
            data,
        }))
    }
}
