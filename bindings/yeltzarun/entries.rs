//! Entries of lists, as they are written and as they are yielded.

use super::ffi;
use super::ffi::{location_kind, range_kind};
use super::reader::part;
use super::{DebugAddrIndex, Error, Result};

/// The addresses from `begin` up to, and without, `end`.
#[derive(Debug, Clone, Copy, PartialEq, Eq, PartialOrd, Ord, Hash)]
pub struct Range {
    /// The first address.
    pub begin: u64,
    /// The first address past the end.
    pub end: u64,
}

impl Range {
    pub(super) fn of(range: ffi::Range) -> Range {
        Range { begin: range.begin, end: range.end }
    }
}

/// The operations that find a value, as a part of the section.
#[derive(Debug, Clone, Copy, PartialEq, Eq, Hash)]
pub struct Expression<'a> {
    bytes: &'a [u8],
    offset: usize,
}

impl<'a> Expression<'a> {
    /// An expression of its own, at offset 0.
    pub fn new(bytes: &'a [u8]) -> Expression<'a> {
        Expression { bytes, offset: 0 }
    }

    /// The expression of an offset and a length in a section; none where they don't lie in there.
    pub fn in_section(section: &'a [u8], offset: u64, length: u64) -> Expression<'a> {
        let given = ffi::Part { offset, length };
        // SAFETY: pointer and length are of one slice.
        let lying = unsafe { ffi::yz_expression(section.as_ptr(), section.len(), given) };
        Expression::at(section, lying)
    }

    /// The expression of a part that lies in the section, as those of the library's answers do.
    pub(super) fn at(section: &'a [u8], at: ffi::Part) -> Expression<'a> {
        Expression { bytes: part(section, at.offset, at.length), offset: at.offset as usize }
    }

    fn part(&self) -> ffi::Part {
        ffi::Part { offset: self.offset as u64, length: self.bytes.len() as u64 }
    }

    /// The expression's bytes.
    pub fn bytes(&self) -> &'a [u8] {
        self.bytes
    }

    /// Where it begins in the section.
    pub fn offset(&self) -> usize {
        self.offset
    }
}

/// An entry as it is written, and what is noted of it.
#[derive(Debug, Clone, Copy, PartialEq, Eq, Hash)]
pub struct Noted<E> {
    /// The entry.
    pub entry: E,
    /// Whether at least one LEB128 number of the entry is padded, as [`Leb128`](super::Leb128) says it.
    /// LEB128 are indexes, the numbers of an offset pair, and lengths; but that of a location list's
    /// `StartxLength` and that of an expression only from version 5 on, before which they have four and
    /// two bytes. These, addresses and bare pairs are never padded, whatever their bytes.
    pub padded: bool,
}

/// An entry of a range list as it is written.
#[derive(Debug, Clone, Copy, PartialEq, Eq, Hash)]
#[allow(missing_docs)]
pub enum RawRngListEntry {
    /// A bare pair, up to version 4.
    AddressOrOffsetPair { begin: u64, end: u64 },
    /// DW_RLE_base_address.
    BaseAddress { addr: u64 },
    /// DW_RLE_base_addressx.
    BaseAddressx { addr: DebugAddrIndex },
    /// DW_RLE_startx_endx.
    StartxEndx { begin: DebugAddrIndex, end: DebugAddrIndex },
    /// DW_RLE_startx_length.
    StartxLength { begin: DebugAddrIndex, length: u64 },
    /// DW_RLE_offset_pair.
    OffsetPair { begin: u64, end: u64 },
    /// DW_RLE_start_end.
    StartEnd { begin: u64, end: u64 },
    /// DW_RLE_start_length.
    StartLength { begin: u64, length: u64 },
}

impl RawRngListEntry {
    pub(super) fn of(entry: ffi::RangeEntry) -> Result<RawRngListEntry> {
        use RawRngListEntry::*;
        let ffi::RangeEntry { kind, first, second } = entry;
        let index = DebugAddrIndex;
        Ok(match kind {
            range_kind::ADDRESS_OR_OFFSET_PAIR => AddressOrOffsetPair { begin: first, end: second },
            range_kind::BASE_ADDRESSX => BaseAddressx { addr: index(first) },
            range_kind::STARTX_ENDX => StartxEndx { begin: index(first), end: index(second) },
            range_kind::STARTX_LENGTH => StartxLength { begin: index(first), length: second },
            range_kind::OFFSET_PAIR => OffsetPair { begin: first, end: second },
            range_kind::BASE_ADDRESS => BaseAddress { addr: first },
            range_kind::START_END => StartEnd { begin: first, end: second },
            range_kind::START_LENGTH => StartLength { begin: first, length: second },
            _ => return Err(Error::Unknown(0, kind)),
        })
    }

    pub(super) fn entry(self) -> ffi::RangeEntry {
        use RawRngListEntry::*;
        let (kind, first, second) = match self {
            AddressOrOffsetPair { begin, end } => (range_kind::ADDRESS_OR_OFFSET_PAIR, begin, end),
            BaseAddressx { addr } => (range_kind::BASE_ADDRESSX, addr.0, 0),
            StartxEndx { begin, end } => (range_kind::STARTX_ENDX, begin.0, end.0),
            StartxLength { begin, length } => (range_kind::STARTX_LENGTH, begin.0, length),
            OffsetPair { begin, end } => (range_kind::OFFSET_PAIR, begin, end),
            BaseAddress { addr } => (range_kind::BASE_ADDRESS, addr, 0),
            StartEnd { begin, end } => (range_kind::START_END, begin, end),
            StartLength { begin, length } => (range_kind::START_LENGTH, begin, length),
        };
        ffi::RangeEntry { kind, first, second }
    }
}

/// An entry of a location list as it is written.
#[derive(Debug, Clone, Copy, PartialEq, Eq, Hash)]
#[allow(missing_docs)]
pub enum RawLocListEntry<'a> {
    /// A bare pair, up to version 4.
    AddressOrOffsetPair { begin: u64, end: u64, data: Expression<'a> },
    /// DW_LLE_base_address.
    BaseAddress { addr: u64 },
    /// DW_LLE_base_addressx.
    BaseAddressx { addr: DebugAddrIndex },
    /// DW_LLE_startx_endx.
    StartxEndx { begin: DebugAddrIndex, end: DebugAddrIndex, data: Expression<'a> },
    /// DW_LLE_startx_length.
    StartxLength { begin: DebugAddrIndex, length: u64, data: Expression<'a> },
    /// DW_LLE_offset_pair.
    OffsetPair { begin: u64, end: u64, data: Expression<'a> },
    /// DW_LLE_default_location.
    DefaultLocation { data: Expression<'a> },
    /// DW_LLE_start_end.
    StartEnd { begin: u64, end: u64, data: Expression<'a> },
    /// DW_LLE_start_length.
    StartLength { begin: u64, length: u64, data: Expression<'a> },
}

impl<'a> RawLocListEntry<'a> {
    pub(super) fn of(section: &'a [u8], entry: ffi::LocationEntry) -> Result<RawLocListEntry<'a>> {
        use RawLocListEntry::*;
        let ffi::LocationEntry { kind, first, second, expression } = entry;
        let (index, data) = (DebugAddrIndex, Expression::at(section, expression));
        Ok(match kind {
            location_kind::ADDRESS_OR_OFFSET_PAIR => {
                AddressOrOffsetPair { begin: first, end: second, data }
            }
            location_kind::BASE_ADDRESSX => BaseAddressx { addr: index(first) },
            location_kind::STARTX_ENDX => {
                StartxEndx { begin: index(first), end: index(second), data }
            }
            location_kind::STARTX_LENGTH => {
                StartxLength { begin: index(first), length: second, data }
            }
            location_kind::OFFSET_PAIR => OffsetPair { begin: first, end: second, data },
            location_kind::DEFAULT_LOCATION => DefaultLocation { data },
            location_kind::BASE_ADDRESS => BaseAddress { addr: first },
            location_kind::START_END => StartEnd { begin: first, end: second, data },
            location_kind::START_LENGTH => StartLength { begin: first, length: second, data },
            _ => return Err(Error::Unknown(0, kind)),
        })
    }

    /// The entry's expression, none where its kind has none.
    pub(super) fn data(self) -> Expression<'a> {
        use RawLocListEntry::*;
        match self {
            AddressOrOffsetPair { data, .. }
            | StartxEndx { data, .. }
            | StartxLength { data, .. }
            | OffsetPair { data, .. }
            | DefaultLocation { data }
            | StartEnd { data, .. }
            | StartLength { data, .. } => data,
            BaseAddress { .. } | BaseAddressx { .. } => Expression::new(&[]),
        }
    }

    pub(super) fn entry(self) -> ffi::LocationEntry {
        use RawLocListEntry::*;
        let (kind, first, second) = match self {
            AddressOrOffsetPair { begin, end, .. } => {
                (location_kind::ADDRESS_OR_OFFSET_PAIR, begin, end)
            }
            BaseAddressx { addr } => (location_kind::BASE_ADDRESSX, addr.0, 0),
            StartxEndx { begin, end, .. } => (location_kind::STARTX_ENDX, begin.0, end.0),
            StartxLength { begin, length, .. } => (location_kind::STARTX_LENGTH, begin.0, length),
            OffsetPair { begin, end, .. } => (location_kind::OFFSET_PAIR, begin, end),
            DefaultLocation { .. } => (location_kind::DEFAULT_LOCATION, 0, 0),
            BaseAddress { addr } => (location_kind::BASE_ADDRESS, addr, 0),
            StartEnd { begin, end, .. } => (location_kind::START_END, begin, end),
            StartLength { begin, length, .. } => (location_kind::START_LENGTH, begin, length),
        };
        ffi::LocationEntry { kind, first, second, expression: self.data().part() }
    }
}

/// A range and the expression that holds in it.
#[derive(Debug, Clone, Copy, PartialEq, Eq, Hash)]
pub struct LocationListEntry<'a> {
    /// The range.
    pub range: Range,
    /// The expression.
    pub data: Expression<'a>,
}

impl<'a> LocationListEntry<'a> {
    pub(super) fn of(section: &'a [u8], location: ffi::Location) -> LocationListEntry<'a> {
        let ffi::Location { begin, end, expression } = location;
        LocationListEntry { range: Range { begin, end }, data: Expression::at(section, expression) }
    }
}
