// Stands for gimli's error type, with the cases that the files used here name
// and no others. It can't change an answer: it only holds what gimli's code
// puts into it, and that code never looks into an error that it passes on.

use crate::constants::{DwLle, DwRle};
use crate::read::ReaderOffsetId;

#[derive(Debug, Clone, Copy, PartialEq, Eq)]
pub enum Error {
    // The nine that have a number in the scope.
    UnexpectedEof(ReaderOffsetId),
    BadUnsignedLeb128,
    UnknownRangeListsEntry(DwRle),
    UnknownLocListsEntry(DwLle),
    UnknownVersion(u64),
    UnsupportedAddressSize(u8),
    UnsupportedSegmentSize(u8),
    UnknownReservedLength(u32),
    UnsupportedOffset,
    // Named only by functions outside the scope: strings, signed numbers,
    // `add_sized`, sized offsets.
    BadUtf8,
    BadSignedLeb128,
    AddressOverflow,
    UnsupportedOffsetSize(u8),
}

pub type Result<T> = core::result::Result<T, Error>;
