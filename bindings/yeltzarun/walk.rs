//! What both kinds of walk have: a list as it is written, and an address table.

use super::ffi;
use super::{DebugAddr, DebugAddrBase, Encoding, EndianSlice, Error, Result, RunTimeEndian};

/// A list's section and how it is written.
#[derive(Debug, Clone, Copy)]
pub struct Written<'a> {
    pub(super) section: &'a [u8],
    endian: RunTimeEndian,
    pub(super) encoding: ffi::Encoding,
}

impl<'a> Written<'a> {
    /// Of two sections the one that lists of the unit's version stand in.
    pub(super) fn by_version(
        older: EndianSlice<'a>,
        newer: EndianSlice<'a>,
        encoding: Encoding,
    ) -> Written<'a> {
        // The byte order makes no difference to the choice.
        let older_holds =
            ffi::yz_section_of(encoding.in_order(older.endian)) == ffi::SECTION_BEFORE_5;
        let chosen = if older_holds { older } else { newer };
        let EndianSlice { section, endian, .. } = chosen;
        Written { section, endian, encoding: encoding.in_order(endian) }
    }

    pub(super) fn ptr(&self) -> ffi::Ptr {
        self.section.as_ptr()
    }

    pub(super) fn len(&self) -> usize {
        self.section.len()
    }

    /// The list's address table, of the same byte order.
    pub(super) fn table(
        &self,
        debug_addr: &DebugAddr<'a>,
        base: DebugAddrBase,
    ) -> Result<Table<'a>> {
        let EndianSlice { section: bytes, endian, .. } = debug_addr.section;
        if !bytes.is_empty() && endian != self.endian {
            return Err(Error::MixedByteOrders);
        }
        Ok(Table { bytes, base: base.0 })
    }
}

/// An address table and its base.
#[derive(Debug, Clone, Copy)]
pub struct Table<'a> {
    bytes: &'a [u8],
    pub(super) base: u64,
}

impl Table<'_> {
    pub(super) fn ptr(&self) -> ffi::Ptr {
        self.bytes.as_ptr()
    }

    pub(super) fn len(&self) -> usize {
        self.bytes.len()
    }
}
