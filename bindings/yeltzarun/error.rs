//! Refusals, and answers by their result.

use super::ffi;
use core::fmt;

/// What a call gives: its answer or a refusal.
pub type Result<T> = core::result::Result<T, Error>;

/// A refusal. No call gives those of the numbers 14 and 18 yet; those of 15 to 17 are given by walks in the
/// profile alone, by [`RngListIter::next_in_profile`](super::RngListIter::next_in_profile) and
/// [`LocListIter::next_in_profile`](super::LocListIter::next_in_profile).
#[derive(Debug, Clone, Copy, PartialEq, Eq, Hash)]
pub enum Error {
    /// Bytes are missing.
    UnexpectedEof,
    /// The tenth byte of a LEB128 number is above 01.
    BadUnsignedLeb128,
    /// A range list entry's kind is above 7; by a [`KindTable`](super::KindTable), its code has no kind.
    UnknownRangeListsEntry(u64),
    /// A location list entry's kind is above 8.
    UnknownLocListsEntry(u64),
    /// A header's version is not 5.
    UnknownVersion(u64),
    /// An address size is not 1, 2, 3, 4 or 8.
    UnsupportedAddressSize(u64),
    /// A segment selector size is not 0.
    UnsupportedSegmentSize(u64),
    /// An initial length lies from 0xfffffff0 to 0xfffffffe.
    UnknownReservedLength(u64),
    /// A product or a sum is at or above 2^64.
    UnsupportedOffset,
    /// A list yields more than [`LIMIT`](super::LIMIT) ranges.
    TooManyRanges,
    /// An output is shorter than the result.
    NoSpace,
    /// The bytes or the ranges make no lawful sheet.
    BadSheet,
    /// A mark's number is above 7, or the mark returned to is not set.
    NoSuchMark,
    /// A span's begin is above its end.
    BadSpan,
    /// In the profile: a LEB128 number has a shorter form.
    PaddedNumber,
    /// In the profile: a base address or a begin is at or above the tombstone bound.
    Tombstone,
    /// In the profile: a range's begin is above its end.
    BackwardRange,
    /// A range is too large for the address size of an older list.
    AddressTooLarge,
    /// The bytes are no [`KindTable`](super::KindTable).
    BadKindTable,
    /// More than [`MOST_ADDRESSES`](super::MOST_ADDRESSES) addresses are looked up in one reading.
    TooManyAddresses,
    /// An address that is looked up with others is above the one after it.
    DescendingAddresses,
    /// A list and its address table have different byte orders. The wrapper says so, before it asks
    /// the library, which reads both in one order. A table without bytes goes with either.
    MixedByteOrders,
    /// A refusal's number and value, of a library that has more of them; or 0 and a result or kind
    /// that is not known here. [`version`](super::version) tells such a library.
    Unknown(u64, u64),
}

impl Error {
    /// The refusal of the library that has a number and, where it has one, a value.
    pub fn from_number(number: u64, value: u64) -> Error {
        match number {
            1 => Error::UnexpectedEof,
            2 => Error::BadUnsignedLeb128,
            3 => Error::UnknownRangeListsEntry(value),
            4 => Error::UnknownLocListsEntry(value),
            5 => Error::UnknownVersion(value),
            6 => Error::UnsupportedAddressSize(value),
            7 => Error::UnsupportedSegmentSize(value),
            8 => Error::UnknownReservedLength(value),
            9 => Error::UnsupportedOffset,
            10 => Error::TooManyRanges,
            11 => Error::NoSpace,
            12 => Error::BadSheet,
            13 => Error::NoSuchMark,
            14 => Error::BadSpan,
            15 => Error::PaddedNumber,
            16 => Error::Tombstone,
            17 => Error::BackwardRange,
            18 => Error::AddressTooLarge,
            19 => Error::BadKindTable,
            20 => Error::TooManyAddresses,
            21 => Error::DescendingAddresses,
            _ => Error::Unknown(number, value),
        }
    }

    /// The refusal's number, 1 to 21; 0 for [`Error::MixedByteOrders`].
    pub fn number(self) -> u64 {
        match self {
            Error::UnexpectedEof => 1,
            Error::BadUnsignedLeb128 => 2,
            Error::UnknownRangeListsEntry(_) => 3,
            Error::UnknownLocListsEntry(_) => 4,
            Error::UnknownVersion(_) => 5,
            Error::UnsupportedAddressSize(_) => 6,
            Error::UnsupportedSegmentSize(_) => 7,
            Error::UnknownReservedLength(_) => 8,
            Error::UnsupportedOffset => 9,
            Error::TooManyRanges => 10,
            Error::NoSpace => 11,
            Error::BadSheet => 12,
            Error::NoSuchMark => 13,
            Error::BadSpan => 14,
            Error::PaddedNumber => 15,
            Error::Tombstone => 16,
            Error::BackwardRange => 17,
            Error::AddressTooLarge => 18,
            Error::BadKindTable => 19,
            Error::TooManyAddresses => 20,
            Error::DescendingAddresses => 21,
            Error::MixedByteOrders => 0,
            Error::Unknown(number, _) => number,
        }
    }

    /// The refusal's value, where it has one.
    pub fn value(self) -> Option<u64> {
        match self {
            Error::UnknownRangeListsEntry(value)
            | Error::UnknownLocListsEntry(value)
            | Error::UnknownVersion(value)
            | Error::UnsupportedAddressSize(value)
            | Error::UnsupportedSegmentSize(value)
            | Error::UnknownReservedLength(value)
            | Error::Unknown(_, value) => Some(value),
            _ => None,
        }
    }

    /// The refusal's name.
    pub fn name(self) -> &'static str {
        match self {
            Error::UnexpectedEof => "UnexpectedEof",
            Error::BadUnsignedLeb128 => "BadUnsignedLeb128",
            Error::UnknownRangeListsEntry(_) => "UnknownRangeListsEntry",
            Error::UnknownLocListsEntry(_) => "UnknownLocListsEntry",
            Error::UnknownVersion(_) => "UnknownVersion",
            Error::UnsupportedAddressSize(_) => "UnsupportedAddressSize",
            Error::UnsupportedSegmentSize(_) => "UnsupportedSegmentSize",
            Error::UnknownReservedLength(_) => "UnknownReservedLength",
            Error::UnsupportedOffset => "UnsupportedOffset",
            Error::TooManyRanges => "TooManyRanges",
            Error::NoSpace => "NoSpace",
            Error::BadSheet => "BadSheet",
            Error::NoSuchMark => "NoSuchMark",
            Error::BadSpan => "BadSpan",
            Error::PaddedNumber => "PaddedNumber",
            Error::Tombstone => "Tombstone",
            Error::BackwardRange => "BackwardRange",
            Error::AddressTooLarge => "AddressTooLarge",
            Error::BadKindTable => "BadKindTable",
            Error::TooManyAddresses => "TooManyAddresses",
            Error::DescendingAddresses => "DescendingAddresses",
            Error::MixedByteOrders => "MixedByteOrders",
            Error::Unknown(..) => "Unknown",
        }
    }
}

impl fmt::Display for Error {
    fn fmt(&self, f: &mut fmt::Formatter<'_>) -> fmt::Result {
        write!(f, "{} {}", self.number(), self.name())?;
        match self.value() {
            Some(value) => write!(f, " {value:#x}"),
            None => Ok(()),
        }
    }
}

impl core::error::Error for Error {}

impl<T> ffi::Answer<T> {
    /// The item of a call that is done or refused.
    pub(super) fn done(self) -> Result<T> {
        match self.result {
            ffi::DONE => Ok(self.item),
            ffi::REFUSED => Err(Error::from_number(self.refusal.into(), self.refusal_value)),
            result => Err(Error::Unknown(0, result.into())),
        }
    }

    /// The item of a call that has a result without one, too.
    pub(super) fn done_unless(self, without: u32) -> Result<Option<T>> {
        if self.result == without { Ok(None) } else { self.done().map(Some) }
    }
}
