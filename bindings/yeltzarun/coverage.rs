//! Coverages, sheets and canonical lists.

use super::ffi;
use super::reader::part;
use super::{Error, LIMIT, Range, Result};
use core::fmt;
use core::mem::MaybeUninit;

/// A sheet has at most this many bytes.
pub const SHEET_MAX: usize = 4 + 16 * LIMIT;
/// A canonical list has at most this many bytes.
pub const CANONICAL_MAX: usize = 19 * LIMIT + 1;

/// The addresses that a list covers, as ranges that ascend and never overlap or touch.
#[derive(Clone, PartialEq, Eq)]
pub struct Coverage {
    n: usize,
    begins: ffi::Bounds,
    ends: ffi::Bounds,
}

impl Coverage {
    /// What a call makes. It writes all of begins and ends, so that they are not cleared before it.
    ///
    /// # Safety
    ///
    /// A call that is done has written both whole.
    pub(super) unsafe fn made(
        call: impl FnOnce(*mut ffi::Bounds, *mut ffi::Bounds) -> ffi::Answer<u64>,
    ) -> Result<Coverage> {
        let mut coverage = MaybeUninit::<Coverage>::uninit();
        let made = coverage.as_mut_ptr();
        // SAFETY: the places are in `coverage`, and no reference is made to what isn't written yet;
        // when all is written, it is a coverage.
        unsafe {
            let n = call(&raw mut (*made).begins, &raw mut (*made).ends).done()?;
            (&raw mut (*made).n).write(n as usize);
            Ok(coverage.assume_init())
        }
    }

    /// Ranges taken as they are; more than [`LIMIT`] are refused. Whether they make a coverage is
    /// seen when a sheet or a canonical list is made of them: those refuse them then.
    pub fn from_ranges(ranges: &[Range]) -> Result<Coverage> {
        if LIMIT < ranges.len() {
            return Err(Error::BadSheet);
        }
        let mut coverage = Coverage { n: ranges.len(), begins: [0; LIMIT], ends: [0; LIMIT] };
        for (i, range) in ranges.iter().enumerate() {
            coverage.begins[i] = range.begin;
            coverage.ends[i] = range.end;
        }
        Ok(coverage)
    }

    /// How many ranges there are.
    pub fn len(&self) -> usize {
        self.n
    }

    /// Whether no address is covered.
    pub fn is_empty(&self) -> bool {
        self.n == 0
    }

    /// The ranges.
    pub fn ranges(&self) -> impl Iterator<Item = Range> + '_ {
        let bounds = self.begins.iter().zip(&self.ends).take(self.n);
        bounds.map(|(&begin, &end)| Range { begin, end })
    }

    /// The sheet, written into an output; [`SHEET_MAX`] bytes are always enough.
    pub fn sheet<'o>(&self, output: &'o mut [u8]) -> Result<Sheet<'o>> {
        // SAFETY: pointer and length are of one slice, which is lent alone.
        let bytes = filled(output, |o, m| unsafe {
            ffi::yz_sheet(self.n as u64, &self.begins, &self.ends, o, m)
        })?;
        Ok(Sheet { bytes })
    }

    /// The canonical list, written into an output; [`CANONICAL_MAX`] bytes are always enough.
    pub fn canonical<'o>(&self, output: &'o mut [u8]) -> Result<CanonicalList<'o>> {
        // SAFETY: pointer and length are of one slice, which is lent alone.
        let bytes = filled(output, |o, m| unsafe {
            ffi::yz_canonical(self.n as u64, &self.begins, &self.ends, o, m)
        })?;
        Ok(CanonicalList { bytes })
    }
}

impl fmt::Debug for Coverage {
    fn fmt(&self, f: &mut fmt::Formatter<'_>) -> fmt::Result {
        f.debug_list().entries(self.ranges()).finish()
    }
}

/// The front of an output that a call has filled.
pub(super) fn filled(
    output: &mut [u8],
    call: impl FnOnce(*mut u8, usize) -> ffi::Answer<u64>,
) -> Result<&[u8]> {
    let len = call(output.as_mut_ptr(), output.len()).done()?;
    Ok(part(output, 0, len))
}

/// The bytes of a sheet: count, address width 8, all begins, all ends, little-endian.
#[derive(Debug, Clone, Copy, PartialEq, Eq, Hash)]
pub struct Sheet<'a> {
    bytes: &'a [u8],
}

impl<'a> Sheet<'a> {
    /// Bytes that may be a sheet.
    pub fn new(bytes: &'a [u8]) -> Sheet<'a> {
        Sheet { bytes }
    }

    /// The bytes.
    pub fn bytes(&self) -> &'a [u8] {
        self.bytes
    }

    /// The coverage that the sheet holds.
    pub fn coverage(&self) -> Result<Coverage> {
        let (s, n) = (self.bytes.as_ptr(), self.bytes.len());
        // SAFETY: pointer and length are of one slice; a call that is done writes all places.
        unsafe { Coverage::made(|begins, ends| ffi::yz_coverage_from_sheet(s, n, begins, ends)) }
    }
}

/// The bytes of a canonical list: two lists have the same ones exactly when they cover the same
/// addresses.
#[derive(Debug, Clone, Copy, PartialEq, Eq, Hash)]
pub struct CanonicalList<'a> {
    bytes: &'a [u8],
}

impl<'a> CanonicalList<'a> {
    /// Bytes that may be a canonical list.
    pub fn new(bytes: &'a [u8]) -> CanonicalList<'a> {
        CanonicalList { bytes }
    }

    /// The bytes.
    pub fn bytes(&self) -> &'a [u8] {
        self.bytes
    }

    /// The coverage that the list tells, read as a section of its own. Any little-endian DWARF 5
    /// range list of address size 8 is read so, canonical or not, also one cut between entries:
    /// [`is_canonical`](CanonicalList::is_canonical) is the test.
    pub fn coverage(&self) -> Result<Coverage> {
        let (s, n) = (self.bytes.as_ptr(), self.bytes.len());
        // SAFETY: pointer and length are of one slice; a call that is done writes all places.
        unsafe {
            Coverage::made(|begins, ends| ffi::yz_coverage_from_canonical(s, n, begins, ends))
        }
    }

    /// Whether the bytes, no more and no fewer, are the canonical list of some coverage.
    pub fn is_canonical(&self) -> bool {
        // SAFETY: pointer and length are of one slice.
        unsafe { ffi::yz_is_canonical(self.bytes.as_ptr(), self.bytes.len()) }
    }
}
