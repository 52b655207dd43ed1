//! Range lists, location lists, address tables and list offsets: the one file that reads them, and
//! it reads them through the proved library.

use crate::Value;
use crate::wrong::{Outcome, Wrong};
use yeltzarun::{
    DebugAddr, DebugAddrBase, DebugAddrIndex, DebugLoc, DebugLocLists, DebugLocListsBase,
    DebugLocListsIndex, DebugRanges, DebugRngLists, DebugRngListsBase, DebugRngListsIndex,
    DwarfFileType, Encoding, KindTable, LocationListEntry, LocationLists, LocationListsOffset,
    Noted, Range, RangeLists, RangeListsOffset, RawLocListEntry, RawRngListEntry, RunTimeEndian,
};

/// What the lists of a unit are read with, all of it from attributes and headers.
#[derive(Clone)]
pub struct Context {
    /// The unit's name for messages.
    pub unit: String,
    pub encoding: Encoding,
    pub endian: RunTimeEndian,
    pub file_type: DwarfFileType,
    /// DW_AT_low_pc of the unit, or of the skeleton of a split unit; or why it can't be told.
    pub base_address: Outcome<Option<u64>>,
    /// DW_AT_addr_base or DW_AT_GNU_addr_base, of the skeleton where the unit is split.
    pub addr_base: Option<u64>,
    /// DW_AT_rnglists_base; in a split unit of version 5 what the standard says, behind the header.
    pub rnglists_base: Option<u64>,
    /// DW_AT_loclists_base, likewise.
    pub loclists_base: Option<u64>,
    /// DW_AT_GNU_ranges_base of the skeleton: offsets of range lists in a split unit of version 4
    /// are counted from there. Elsewhere there is none to add.
    pub ranges_base: Option<u64>,
    pub addr: Option<&'static [u8]>,
    pub ranges: Option<&'static [u8]>,
    pub rnglists: Option<&'static [u8]>,
    pub loc: Option<&'static [u8]>,
    pub loclists: Option<&'static [u8]>,
    /// The codes for the kinds of range list entries: DWARF's own where none were given.
    pub kinds: &'static KindTable,
}

/// A list that an attribute names.
#[derive(Debug, Clone, Copy, PartialEq, Eq)]
pub struct Place {
    pub section: &'static str,
    pub offset: u64,
}

/// A location that holds at an address.
#[derive(Debug, Clone, PartialEq, Eq)]
pub struct Location {
    pub range: Range,
    pub expression: &'static [u8],
}

impl Location {
    fn of(entry: LocationListEntry<'static>) -> Location {
        Location { range: entry.range, expression: entry.data.bytes() }
    }
}

/// An entry of a list that comes to something, can't be read, or is padded.
pub struct Numbered<T> {
    /// Its number in the list, counted from 1.
    pub number: u64,
    /// Whether a LEB128 number of it has a shorter form.
    pub padded: bool,
    /// What it comes to.
    pub item: Outcome<Option<T>>,
}

/// What a list's entries lean on.
#[derive(Default)]
struct Leans {
    on_the_table: bool,
    on_the_unit: bool,
    based: bool,
}

impl Leans {
    fn range(&mut self, entry: RawRngListEntry) {
        use RawRngListEntry::*;
        match entry {
            BaseAddress { .. } => self.based = true,
            BaseAddressx { .. } => (self.based, self.on_the_table) = (true, true),
            StartxEndx { .. } | StartxLength { .. } => self.on_the_table = true,
            AddressOrOffsetPair { .. } | OffsetPair { .. } => self.on_the_unit |= !self.based,
            StartEnd { .. } | StartLength { .. } => {}
        }
    }

    fn location(&mut self, entry: RawLocListEntry) {
        use RawLocListEntry::*;
        match entry {
            BaseAddress { .. } => self.based = true,
            BaseAddressx { .. } => (self.based, self.on_the_table) = (true, true),
            StartxEndx { .. } | StartxLength { .. } => self.on_the_table = true,
            AddressOrOffsetPair { .. } | OffsetPair { .. } => self.on_the_unit |= !self.based,
            StartEnd { .. } | StartLength { .. } | DefaultLocation { .. } => {}
        }
    }
}

impl Context {
    fn is_split(&self) -> bool {
        self.file_type == DwarfFileType::Dwo
    }

    fn missing<T>(&self, what: &str) -> Outcome<T> {
        Err(Wrong::Missing(format!("{}: {what}", self.unit)))
    }

    fn at(&self, place: Place) -> String {
        format!("{}: the list at {:#x} of {}", self.unit, place.offset, place.section)
    }

    /// What a walk gives, entry by entry, its refusals told with the number of the entry.
    fn numbered<T>(
        &self,
        place: Place,
        walk: impl FnMut() -> Option<(u64, bool, yeltzarun::Result<Option<T>>)>,
    ) -> Vec<Numbered<T>> {
        let Place { section, offset } = place;
        let at = |number, padded| {
            let padded = if padded { ", padded," } else { "" };
            format!("{}: entry {number}{padded} of the list at {offset:#x} of {section}", self.unit)
        };
        std::iter::from_fn(walk)
            .filter(|(_, padded, item)| *padded || !matches!(item, Ok(None)))
            .map(|(number, padded, item)| {
                let item = item.map_err(Wrong::refused(at(number, padded)));
                Numbered { number, padded, item }
            })
            .collect()
    }

    fn debug_addr(&self) -> DebugAddr<'static> {
        DebugAddr::new(self.addr.unwrap_or(&[]), self.endian)
    }

    fn range_lists(&self) -> RangeLists<'static, &'static KindTable> {
        let (older, newer) = (self.ranges.unwrap_or(&[]), self.rnglists.unwrap_or(&[]));
        RangeLists::new(
            DebugRanges::new(older, self.endian),
            DebugRngLists::new(newer, self.endian),
        )
        .with_kinds(self.kinds)
    }

    fn location_lists(&self) -> LocationLists<'static> {
        let (older, newer) = (self.loc.unwrap_or(&[]), self.loclists.unwrap_or(&[]));
        LocationLists::new(
            DebugLoc::new(older, self.endian),
            DebugLocLists::new(newer, self.endian),
        )
    }

    /// The address of an index in the unit's table.
    pub fn address(&self, index: u64) -> Outcome<u64> {
        let Some(base) = self.addr_base else {
            return self.missing("an address is an index, but no attribute tells the table's base");
        };
        if self.addr.is_none() {
            return self.missing("an address is an index, but there is no section .debug_addr");
        }
        let size = self.encoding.address_size;
        self.debug_addr()
            .get_address(size, DebugAddrBase(base), DebugAddrIndex(index))
            .map_err(Wrong::refused(format!("{}: index {index} of the address table", self.unit)))
    }

    /// The address of an attribute's value, and whether it comes from the table; none where the
    /// value is no address.
    pub fn address_of(&self, value: &Value) -> Outcome<Option<(u64, bool)>> {
        match value {
            Value::Addr(address) => Ok(Some((*address, false))),
            Value::DebugAddrIndex(index) => Ok(Some((self.address(index.0 as u64)?, true))),
            _ => Ok(None),
        }
    }

    /// The range list that an attribute's value names; none where the value is no list.
    pub fn range_list(&self, value: &Value) -> Outcome<Option<Place>> {
        let section = match (self.encoding.version >= 5, self.is_split()) {
            (true, true) => ".debug_rnglists.dwo",
            (true, false) => ".debug_rnglists",
            (false, _) => ".debug_ranges",
        };
        let offset = match value {
            Value::RangeListsRef(offset) if self.is_split() && self.encoding.version < 5 => {
                let Some(base) = self.ranges_base else {
                    return self
                        .missing("a range list of a split unit, but no DW_AT_GNU_ranges_base");
                };
                let Some(offset) = base.checked_add(offset.0 as u64) else {
                    let what = format!("{}: DW_AT_GNU_ranges_base and an offset", self.unit);
                    return Err(Wrong::refused(what)(yeltzarun::Error::UnsupportedOffset));
                };
                offset
            }
            Value::RangeListsRef(offset) => offset.0 as u64,
            Value::DebugRngListsIndex(index) => {
                let Some(base) = self.rnglists_base else {
                    return self.missing("a range list is an index, but no DW_AT_rnglists_base");
                };
                if self.rnglists.is_none() {
                    return self.missing(&format!("there is no section {section}"));
                }
                let index = DebugRngListsIndex(index.0 as u64);
                let offset =
                    self.range_lists().get_offset(self.encoding, DebugRngListsBase(base), index);
                let what = format!("{}: index {} of {section}", self.unit, index.0);
                offset.map_err(Wrong::refused(what))?.0
            }
            _ => return Ok(None),
        };
        let there = if self.encoding.version >= 5 { self.rnglists } else { self.ranges };
        if there.is_none() {
            return self.missing(&format!("there is no section {section}"));
        }
        Ok(Some(Place { section, offset }))
    }

    /// The location list that an attribute's value names; none where the value is no list.
    pub fn location_list(&self, value: &Value) -> Outcome<Option<Place>> {
        let (section, there) = match (self.encoding.version >= 5, self.is_split()) {
            (true, true) => (".debug_loclists.dwo", self.loclists),
            (true, false) => (".debug_loclists", self.loclists),
            (false, true) => (".debug_loc.dwo", self.loc),
            (false, false) => (".debug_loc", self.loc),
        };
        let offset = match value {
            Value::LocationListsRef(offset) => offset.0 as u64,
            Value::DebugLocListsIndex(index) => {
                let Some(base) = self.loclists_base else {
                    return self.missing("a location list is an index, but no DW_AT_loclists_base");
                };
                if there.is_none() {
                    return self.missing(&format!("there is no section {section}"));
                }
                let index = DebugLocListsIndex(index.0 as u64);
                let offset =
                    self.location_lists().get_offset(self.encoding, DebugLocListsBase(base), index);
                let what = format!("{}: index {} of {section}", self.unit, index.0);
                offset.map_err(Wrong::refused(what))?.0
            }
            _ => return Ok(None),
        };
        if there.is_none() {
            return self.missing(&format!("there is no section {section}"));
        }
        Ok(Some(Place { section, offset }))
    }

    /// Base address and table base for a list whose entries lean on these. What no entry leans on
    /// may be missing, and is then 0, which no answer hangs on.
    fn bases(&self, place: Place, leans: impl FnOnce() -> Leans) -> Outcome<(u64, DebugAddrBase)> {
        let table = self.addr_base.filter(|_| self.addr.is_some());
        if let (Ok(Some(base_address)), Some(table)) = (&self.base_address, table) {
            return Ok((*base_address, DebugAddrBase(table)));
        }
        let leans = leans();
        if leans.on_the_table && self.addr_base.is_none() {
            return self.missing(&format!(
                "the list at {:#x} of {} leans on the address table, but no attribute tells its base",
                place.offset, place.section
            ));
        }
        if leans.on_the_table && self.addr.is_none() {
            return self.missing(&format!(
                "the list at {:#x} of {} leans on the address table, but there is no .debug_addr",
                place.offset, place.section
            ));
        }
        let base_address = match &self.base_address {
            Ok(Some(base_address)) => *base_address,
            _ if !leans.on_the_unit => 0,
            Err(wrong) => return Err(wrong.clone()),
            Ok(None) => {
                return self.missing(&format!(
                    "the list at {:#x} of {} leans on the unit's base address, but it has no DW_AT_low_pc",
                    place.offset, place.section
                ));
            }
        };
        Ok((base_address, DebugAddrBase(table.unwrap_or(0))))
    }

    fn range_bases(&self, place: Place) -> Outcome<(u64, DebugAddrBase)> {
        self.bases(place, || {
            let mut leans = Leans::default();
            let walk = self.range_lists().raw_ranges(RangeListsOffset(place.offset), self.encoding);
            // What comes behind a refusal isn't read.
            walk.into_iter().flatten().map_while(Result::ok).for_each(|entry| leans.range(entry));
            leans
        })
    }

    fn location_bases(&self, place: Place) -> Outcome<(u64, DebugAddrBase)> {
        self.bases(place, || {
            let (lists, offset) = (self.location_lists(), LocationListsOffset(place.offset));
            let walk = match self.file_type {
                DwarfFileType::Main => lists.raw_locations(offset, self.encoding),
                DwarfFileType::Dwo => lists.raw_locations_dwo(offset, self.encoding),
            };
            let mut leans = Leans::default();
            // What comes behind a refusal isn't read.
            walk.into_iter()
                .flatten()
                .map_while(Result::ok)
                .for_each(|entry| leans.location(entry));
            leans
        })
    }

    /// The first range of a list that holds an address.
    pub fn range_at(&self, place: Place, address: u64) -> Outcome<Option<Range>> {
        let (base_address, table) = self.range_bases(place)?;
        let (lists, offset) = (self.range_lists(), RangeListsOffset(place.offset));
        lists
            .lookup(offset, self.encoding, base_address, &self.debug_addr(), table, address)
            .map_err(Wrong::refused(self.at(place)))
    }

    /// The entries of a range list that come to a range, are refused or are padded.
    pub fn ranges(&self, place: Place) -> Outcome<Vec<Numbered<Range>>> {
        let (base_address, table) = self.range_bases(place)?;
        let (lists, offset) = (self.range_lists(), RangeListsOffset(place.offset));
        let mut walk = lists
            .ranges(offset, self.encoding, base_address, &self.debug_addr(), table)
            .map_err(Wrong::refused(self.at(place)))?;
        Ok(self.numbered(place, || {
            let Noted { entry, padded } = match walk.next_raw_noted() {
                Ok(noted) => noted?,
                // What can't be read isn't counted.
                Err(refusal) => return Some((walk.entries() + 1, false, Err(refusal))),
            };
            Some((walk.entries(), padded, walk.convert_raw(entry)))
        }))
    }

    /// The locations of a list that hold at an address: the one that the library's lookup finds, and
    /// then those that overlap with it. A default location and a bounded one never stand together.
    pub fn locations_at(&self, place: Place, address: u64) -> Outcome<Vec<Location>> {
        let (base_address, table) = self.location_bases(place)?;
        let (lists, offset) = (self.location_lists(), LocationListsOffset(place.offset));
        let (debug_addr, split) = (self.debug_addr(), self.file_type);
        let refused = || Wrong::refused(self.at(place));
        let Some(first) = lists
            .lookup(offset, self.encoding, split, base_address, &debug_addr, table, address)
            .map_err(refused())?
        else {
            return Ok(Vec::new());
        };
        let mut walk = match split {
            DwarfFileType::Main => {
                lists.locations(offset, self.encoding, base_address, &debug_addr, table)
            }
            DwarfFileType::Dwo => {
                lists.locations_dwo(offset, self.encoding, base_address, &debug_addr, table)
            }
        }
        .map_err(refused())?;
        // Whether what was found is a default location, from its entry on, which its expression tells.
        let (mut found, mut default) = (Vec::new(), None);
        while let Some(raw) = walk.next_raw().map_err(refused())? {
            let is_default = matches!(raw, RawLocListEntry::DefaultLocation { .. });
            let Some(entry) = walk.convert_raw(raw).map_err(refused())? else { continue };
            if entry == first {
                default = Some(is_default);
            }
            let holds = entry.range.begin <= address && address < entry.range.end;
            if holds && default == Some(is_default) {
                found.push(Location::of(entry));
            }
        }
        Ok(found)
    }

    /// The entries of a location list, likewise.
    pub fn locations(&self, place: Place) -> Outcome<Vec<Numbered<Location>>> {
        let (base_address, table) = self.location_bases(place)?;
        let (lists, offset) = (self.location_lists(), LocationListsOffset(place.offset));
        let debug_addr = self.debug_addr();
        let mut walk = match self.file_type {
            DwarfFileType::Main => {
                lists.locations(offset, self.encoding, base_address, &debug_addr, table)
            }
            DwarfFileType::Dwo => {
                lists.locations_dwo(offset, self.encoding, base_address, &debug_addr, table)
            }
        }
        .map_err(Wrong::refused(self.at(place)))?;
        Ok(self.numbered(place, || {
            let Noted { entry, padded } = match walk.next_raw_noted() {
                Ok(noted) => noted?,
                // What can't be read isn't counted.
                Err(refusal) => return Some((walk.entries() + 1, false, Err(refusal))),
            };
            let item = walk.convert_raw(entry).map(|item| item.map(Location::of));
            Some((walk.entries(), padded, item))
        }))
    }
}
