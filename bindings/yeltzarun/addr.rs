//! Address tables.

use super::ffi;
use super::{
    DebugAddr, DebugAddrBase, DebugAddrIndex, DebugAddrOffset, Encoding, EndianSlice, Format,
    Result, RunTimeEndian,
};

impl<'a> DebugAddr<'a> {
    /// The address of an index in the table at a base. A row past the table's end reads what
    /// follows in the section.
    pub fn get_address(
        &self,
        address_size: u8,
        base: DebugAddrBase,
        index: DebugAddrIndex,
    ) -> Result<u64> {
        let EndianSlice { section, endian, .. } = self.section;
        // Version and format make no difference.
        let encoding = Encoding { address_size, format: Format::Dwarf32, version: 5 };
        let encoding = encoding.in_order(endian);
        // SAFETY: pointer and length are of one slice.
        let answer = unsafe {
            ffi::yz_get_address(section.as_ptr(), section.len(), base.0, encoding, index.0)
        };
        answer.done()
    }

    /// The headers of the section's tables, one after the other.
    pub fn headers(&self) -> AddrHeaderIter<'a> {
        AddrHeaderIter { section: self.section.section, endian: self.section.endian, at: 0 }
    }
}

/// A walk over the headers of `.debug_addr`.
#[derive(Debug, Clone)]
pub struct AddrHeaderIter<'a> {
    section: &'a [u8],
    endian: RunTimeEndian,
    at: u64,
}

impl<'a> AddrHeaderIter<'a> {
    /// The next header; after a refusal there is none.
    #[allow(clippy::should_implement_trait)]
    pub fn next(&mut self) -> Result<Option<AddrHeader<'a>>> {
        let (s, big_endian) = (self.section, self.endian.is_big_endian());
        // SAFETY: pointer and length are of one slice.
        let answer = unsafe { ffi::yz_table_next(s.as_ptr(), s.len(), big_endian, &mut self.at) };
        let header = answer.done_unless(ffi::END)?;
        Ok(header.map(|header| AddrHeader { section: s, header }))
    }
}

/// The header of a table in `.debug_addr`.
#[derive(Debug, Clone, Copy)]
pub struct AddrHeader<'a> {
    section: &'a [u8],
    header: ffi::TableHeader,
}

impl<'a> AddrHeader<'a> {
    /// Where the header begins.
    pub fn offset(&self) -> DebugAddrOffset {
        DebugAddrOffset(self.header.offset)
    }

    /// The length that the header gives: the bytes after the length itself.
    pub fn length(&self) -> u64 {
        self.header.length
    }

    /// How the unit is written.
    pub fn encoding(&self) -> Encoding {
        Encoding::of(self.header.encoding)
    }

    /// Where the addresses begin.
    pub fn base(&self) -> DebugAddrBase {
        DebugAddrBase(self.header.entries.offset)
    }

    /// The table's addresses.
    pub fn entries(&self) -> AddrEntryIter<'a> {
        let AddrHeader { section, header } = *self;
        AddrEntryIter { section, encoding: header.encoding, entries: header.entries }
    }
}

/// A walk over the addresses of a table.
#[derive(Debug, Clone)]
pub struct AddrEntryIter<'a> {
    section: &'a [u8],
    encoding: ffi::Encoding,
    /// What is left.
    entries: ffi::Part,
}

impl AddrEntryIter<'_> {
    /// The next address; after a refusal there is none.
    #[allow(clippy::should_implement_trait)]
    pub fn next(&mut self) -> Result<Option<u64>> {
        let (s, encoding) = (self.section, self.encoding);
        // SAFETY: pointer and length are of one slice.
        let answer =
            unsafe { ffi::yz_table_entry_next(s.as_ptr(), s.len(), encoding, &mut self.entries) };
        answer.done_unless(ffi::END)
    }
}
