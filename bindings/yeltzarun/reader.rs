//! Sums of addresses, and numbers read from lent bytes.

use super::ffi;
use super::{Encoding, Format, Result, RunTimeEndian};

/// Sums and bounds of addresses, by address size.
pub trait ReaderAddress: Sized {
    /// The sum modulo 2^64, kept to the size.
    fn wrapping_add_sized(self, length: u64, size: u8) -> Self;
    /// The largest address of the size.
    fn ones_sized(size: u8) -> Self;
    /// From this address on, one stands for code that was removed.
    fn min_tombstone(size: u8) -> Self;
}

impl ReaderAddress for u64 {
    fn wrapping_add_sized(self, length: u64, size: u8) -> u64 {
        ffi::yz_wrapping_add_sized(self, length, size)
    }

    fn ones_sized(size: u8) -> u64 {
        ffi::yz_ones_sized(size)
    }

    fn min_tombstone(size: u8) -> u64 {
        ffi::yz_min_tombstone(size)
    }
}

/// The bytes of a part of a section; none where it doesn't lie in there.
pub(super) fn part(section: &[u8], offset: u64, len: u64) -> &[u8] {
    let end = offset.saturating_add(len);
    section.get(offset as usize..end as usize).unwrap_or(&[])
}

/// An unsigned LEB128 number, and how it is written.
#[derive(Debug, Clone, Copy, PartialEq, Eq, Hash)]
pub struct Leb128 {
    /// The number.
    pub value: u64,
    /// How many bytes it takes, 1 to 10.
    pub length: usize,
    /// Whether a shorter form of it exists: it has more than one byte, and the last is 00.
    pub padded: bool,
}

/// Bytes with a byte order, read from the front. A refused read moves nothing.
#[derive(Debug, Default, Clone, Copy, PartialEq, Eq, Hash)]
pub struct EndianSlice<'a> {
    pub(super) section: &'a [u8],
    pub(super) at: usize,
    pub(super) endian: RunTimeEndian,
}

impl<'a> EndianSlice<'a> {
    /// All of the bytes.
    pub fn new(slice: &'a [u8], endian: RunTimeEndian) -> EndianSlice<'a> {
        EndianSlice { section: slice, at: 0, endian }
    }

    /// The bytes that are left.
    pub fn slice(&self) -> &'a [u8] {
        self.section.get(self.at..).unwrap_or(&[])
    }

    /// The byte order.
    pub fn endian(&self) -> RunTimeEndian {
        self.endian
    }

    /// How many bytes are left.
    pub fn len(&self) -> usize {
        self.slice().len()
    }

    /// Whether no bytes are left.
    pub fn is_empty(&self) -> bool {
        self.len() == 0
    }

    /// A call at the place.
    fn call<T>(
        &self,
        call: impl FnOnce(ffi::Ptr, usize, usize, bool) -> ffi::Answer<T>,
    ) -> Result<T> {
        let (s, big_endian) = (self.section, self.endian.is_big_endian());
        call(s.as_ptr(), s.len(), self.at, big_endian).done()
    }

    /// The number of a call at the place, which then moves.
    fn read(
        &mut self,
        call: impl FnOnce(ffi::Ptr, usize, usize, bool) -> ffi::Answer<ffi::Read>,
    ) -> Result<u64> {
        let read = self.call(call)?;
        self.at = read.next as usize;
        Ok(read.number)
    }

    /// A number of one byte.
    pub fn read_u8(&mut self) -> Result<u8> {
        // SAFETY: pointer and length are of one slice.
        let number = self.read(|s, n, at, _| unsafe { ffi::yz_read_u8(s, n, at) })?;
        Ok(number as u8)
    }

    /// A number of two bytes.
    pub fn read_u16(&mut self) -> Result<u16> {
        // SAFETY: pointer and length are of one slice.
        let number = self.read(|s, n, at, big| unsafe { ffi::yz_read_u16(s, n, big, at) })?;
        Ok(number as u16)
    }

    /// A number of four bytes.
    pub fn read_u32(&mut self) -> Result<u32> {
        // SAFETY: pointer and length are of one slice.
        let number = self.read(|s, n, at, big| unsafe { ffi::yz_read_u32(s, n, big, at) })?;
        Ok(number as u32)
    }

    /// A number of eight bytes.
    pub fn read_u64(&mut self) -> Result<u64> {
        // SAFETY: pointer and length are of one slice.
        self.read(|s, n, at, big| unsafe { ffi::yz_read_u64(s, n, big, at) })
    }

    /// An unsigned LEB128 number.
    pub fn read_uleb128(&mut self) -> Result<u64> {
        self.read_uleb128_with_length().map(|number| number.value)
    }

    /// An unsigned LEB128 number, its length, and whether it is padded.
    pub fn read_uleb128_with_length(&mut self) -> Result<Leb128> {
        // SAFETY: pointer and length are of one slice.
        let read = self.call(|s, n, at, _| unsafe { ffi::yz_uleb128(s, n, at) })?;
        self.at = read.next as usize;
        let ffi::Leb128 { number: value, length, padded, .. } = read;
        Ok(Leb128 { value, length: length as usize, padded: padded != 0 })
    }

    /// An address of a size.
    pub fn read_address(&mut self, address_size: u8) -> Result<u64> {
        // Version and format make no difference.
        let encoding = Encoding { address_size, format: Format::Dwarf32, version: 5 };
        let encoding = encoding.in_order(self.endian);
        // SAFETY: pointer and length are of one slice.
        self.read(|s, n, at, _| unsafe { ffi::yz_read_address(s, n, encoding, at) })
    }

    /// An address size of one byte.
    pub fn read_address_size(&mut self) -> Result<u8> {
        // SAFETY: pointer and length are of one slice.
        let number = self.read(|s, n, at, _| unsafe { ffi::yz_read_address_size(s, n, at) })?;
        Ok(number as u8)
    }

    /// An offset of a format.
    pub fn read_offset(&mut self, format: Format) -> Result<u64> {
        // Version and address size make no difference.
        let encoding = Encoding { address_size: 8, format, version: 5 }.in_order(self.endian);
        // SAFETY: pointer and length are of one slice.
        self.read(|s, n, at, _| unsafe { ffi::yz_read_offset(s, n, encoding, at) })
    }

    /// An initial length and the format that it tells.
    pub fn read_initial_length(&mut self) -> Result<(u64, Format)> {
        // SAFETY: pointer and length are of one slice.
        let unit = self.call(|s, n, at, big| unsafe { ffi::yz_initial_length(s, n, big, at) })?;
        self.at = unit.next as usize;
        Ok((unit.length, Format::of(unit.dwarf64 != 0)))
    }

    /// Passes over some bytes.
    pub fn skip(&mut self, len: u64) -> Result<()> {
        // SAFETY: pointer and length are of one slice.
        let next = self.call(|s, n, at, _| unsafe { ffi::yz_skip(s, n, at, len) })?;
        self.at = next as usize;
        Ok(())
    }

    /// Takes some bytes off the front.
    pub fn split(&mut self, len: u64) -> Result<EndianSlice<'a>> {
        // SAFETY: pointer and length are of one slice.
        let split = self.call(|s, n, at, _| unsafe { ffi::yz_split(s, n, at, len) })?;
        self.at = split.next as usize;
        let ffi::Part { offset, length } = split.part;
        Ok(EndianSlice::new(part(self.section, offset, length), self.endian))
    }

    /// Cuts what is left to a length.
    pub fn truncate(&mut self, len: u64) -> Result<()> {
        // SAFETY: pointer and length are of one slice.
        let end = self.call(|s, n, at, _| unsafe { ffi::yz_truncate(s, n, at, len) })?;
        self.section = part(self.section, 0, end);
        Ok(())
    }
}
