//! The headers of lists.

use super::ffi;
use super::reader::part;
use super::{Encoding, EndianSlice, Result};

/// The header of a unit in `.debug_rnglists` or `.debug_loclists`.
#[derive(Debug, Clone, Copy, PartialEq, Eq, Hash)]
pub struct ListsHeader {
    /// How the unit is written.
    pub encoding: Encoding,
    /// How many offsets follow the header.
    pub offset_entry_count: u32,
    size: u8,
}

impl ListsHeader {
    /// The header at the front; what is left is then the rest of its unit. A refusal leaves the
    /// input as it was.
    pub fn parse(input: &mut EndianSlice<'_>) -> Result<ListsHeader> {
        let EndianSlice { section, at, endian } = *input;
        // SAFETY: pointer and length are of one slice.
        let answer = unsafe {
            ffi::yz_lists_header(section.as_ptr(), section.len(), endian.is_big_endian(), at)
        };
        let header = answer.done()?;
        // The rest lies in the section.
        input.section = part(section, 0, header.rest.offset + header.rest.length);
        input.at = header.rest.offset as usize;
        Ok(ListsHeader {
            encoding: Encoding::of(header.encoding),
            offset_entry_count: header.offset_entry_count as u32,
            size: header.header_size as u8,
        })
    }

    /// How many bytes the header has.
    pub fn size(self) -> u8 {
        self.size
    }
}
