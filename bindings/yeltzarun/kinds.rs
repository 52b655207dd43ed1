//! Tables of kind numbers, and the calls over range lists by the one or the other.

use super::ffi;
use super::{Error, Result};

/// What a table has at a code without a kind.
pub const NO_KIND: u8 = ffi::NO_KIND;

/// A table of kind numbers, checked: for each code that the entries of range lists may begin with, the
/// number of its kind, 0 to 7 as DWARF 5 has them with 0 for the end of the list, or [`NO_KIND`].
///
/// A compiler that has codes of its own is read by [`RangeLists::with_kinds`](super::RangeLists::with_kinds).
///
/// ```
/// use yeltzarun::*;
///
/// // The supplier's code 10 ends a list, 14 is an offset pair and 17 is start and length.
/// let mut file = [NO_KIND; 256];
/// (file[0x10], file[0x14], file[0x17]) = (0, 4, 7);
/// let kinds = KindTable::load(&file)?;
///
/// let list = [0x14, 0x01, 0x05, 0x17, 0x10, 0x00, 0x00, 0x00, 0x08, 0x10];
/// let little = RunTimeEndian::Little;
/// let lists = RangeLists::new(DebugRanges::default(), DebugRngLists::new(&list, little));
/// let encoding = Encoding { address_size: 4, format: Format::Dwarf32, version: 5 };
/// let (offset, table, base) = (RangeListsOffset(0), DebugAddr::default(), DebugAddrBase(0));
///
/// let walk = lists.with_kinds(&kinds).ranges(offset, encoding, 0x1000, &table, base)?;
/// let ranges = walk.collect::<Result<Vec<_>>>()?;
/// assert_eq!(ranges, [Range { begin: 0x1001, end: 0x1005 }, Range { begin: 0x10, end: 0x18 }]);
///
/// // Entries as they are written have DWARF's kinds, and the other calls are those of every list.
/// let first = lists.with_kinds(&kinds).raw_ranges(offset, encoding)?.next()?;
/// assert_eq!(first, Some(RawRngListEntry::OffsetPair { begin: 1, end: 5 }));
/// let found = lists.with_kinds(&kinds).lookup(offset, encoding, 0x1000, &table, base, 0x12)?;
/// assert_eq!(found, Some(Range { begin: 0x10, end: 0x18 }));
///
/// // By DWARF's own numbers 14 is no kind, and by the supplier's 4 is none.
/// let refused = lists.raw_ranges(offset, encoding)?.next();
/// assert_eq!(refused, Err(Error::UnknownRangeListsEntry(0x14)));
/// file[0x04] = 4;
/// assert_eq!(KindTable::load(&file), Err(Error::BadKindTable)); // 4 has two codes.
/// # Ok::<(), Error>(())
/// ```
#[derive(Debug, Clone, PartialEq, Eq, Hash)]
pub struct KindTable {
    bytes: [u8; ffi::KIND_CODES],
}

impl KindTable {
    /// DWARF's own numbers: a list's codes are the kinds.
    pub const DWARF: KindTable = {
        let mut bytes = [NO_KIND; ffi::KIND_CODES];
        let mut kind = 0;
        while kind < 8 {
            bytes[kind as usize] = kind;
            kind += 1;
        }
        KindTable { bytes }
    };

    /// The table of these bytes. [`BadKindTable`](super::Error::BadKindTable) where they are not 256,
    /// where one is 8 to 254, where a kind from 0 to 7 has two codes, and where 0 has none. Any of the
    /// kinds 1 to 7 may have none, and any number of codes no kind.
    pub fn load(bytes: &[u8]) -> Result<KindTable> {
        // SAFETY: pointer and length are of one slice.
        unsafe { ffi::yz_kinds_load(bytes.as_ptr(), bytes.len()) }.done()?;
        // A library that this wrapper is for loads no other length.
        let bytes = bytes.try_into().map_err(|_| Error::Unknown(0, bytes.len() as u64))?;
        Ok(KindTable { bytes })
    }

    /// The bytes, each at its code.
    pub fn bytes(&self) -> &[u8; ffi::KIND_CODES] {
        &self.bytes
    }
}

/// The numbers of [`KindTable::DWARF`] without a table, which range lists are read by where none is given.
#[derive(Debug, Default, Clone, Copy, PartialEq, Eq, Hash)]
pub struct DwarfKinds;

/// What range lists are read by: [`DwarfKinds`], or a [`KindTable`] that is lent, and no other type.
/// Which it is, is known when a walk is compiled, so that an ordinary one asks for no table.
pub trait Kinds: calls::Calls {}

impl Kinds for DwarfKinds {}
impl Kinds for &KindTable {}

pub(super) mod calls {
    use super::super::walk::{Table, Written};
    use super::ffi;
    use super::{DwarfKinds, KindTable};

    /// A list from its opening on: its section, where it begins there, and what it is read with.
    #[derive(Clone, Copy)]
    pub struct Whole<'a> {
        pub list: Written<'a>,
        pub table: Table<'a>,
        pub offset: u64,
        pub base_address: u64,
    }

    pub trait Calls: Copy {
        fn next(self, l: Written, t: Table, walk: &mut ffi::Walk) -> ffi::Answer<ffi::Range>;
        fn next_in_profile(
            self,
            l: Written,
            t: Table,
            walk: &mut ffi::Walk,
        ) -> ffi::Answer<ffi::Range>;
        fn next_raw(self, l: Written, walk: &mut ffi::Walk) -> ffi::Answer<ffi::RawRange>;
        fn lookup(self, whole: Whole, address: u64) -> ffi::Answer<ffi::Range>;
        fn lookups(
            self,
            whole: Whole,
            addresses: &[u64],
            found: &mut ffi::Found,
        ) -> ffi::Answer<u64>;
        /// # Safety
        ///
        /// Both places can be written. A call that is done has written them whole.
        unsafe fn coverage(
            self,
            whole: Whole,
            begins: *mut ffi::Bounds,
            ends: *mut ffi::Bounds,
        ) -> ffi::Answer<u64>;
        fn runs(self, whole: Whole, begins: &mut [u64], ends: &mut [u64]) -> ffi::Answer<u64>;
        /// # Safety
        ///
        /// Pointer and length are of one slice, which is lent alone.
        unsafe fn canonical(self, whole: Whole, output: *mut u8, len: usize) -> ffi::Answer<u64>;
    }

    /// The calls of the library for a type: their names, and what they are lent beside all else.
    macro_rules! calls {
        (
            $type:ty: $next:ident, $next_in_profile:ident, $next_raw:ident, $lookup:ident, $lookups:ident,
            $coverage:ident, $runs:ident, $canonical:ident, |$kinds:ident| $($lent:expr),*
        ) => {
            // SAFETY, of every call: each pointer and length are of one slice, and what is written to
            // is lent alone.
            impl Calls for $type {
                fn next(self, l: Written, t: Table, walk: &mut ffi::Walk) -> ffi::Answer<ffi::Range> {
                    let ($kinds, at, len, base) = (self, t.ptr(), t.len(), t.base);
                    unsafe {
                        ffi::$next(l.ptr(), l.len(), at, len, base, l.encoding, $($lent,)* walk)
                    }
                }

                fn next_in_profile(
                    self,
                    l: Written,
                    t: Table,
                    walk: &mut ffi::Walk,
                ) -> ffi::Answer<ffi::Range> {
                    let ($kinds, at, len, base) = (self, t.ptr(), t.len(), t.base);
                    unsafe {
                        ffi::$next_in_profile(
                            l.ptr(), l.len(), at, len, base, l.encoding, $($lent,)* walk,
                        )
                    }
                }

                fn next_raw(self, l: Written, walk: &mut ffi::Walk) -> ffi::Answer<ffi::RawRange> {
                    let $kinds = self;
                    unsafe { ffi::$next_raw(l.ptr(), l.len(), l.encoding, $($lent,)* walk) }
                }

                fn lookup(self, whole: Whole, address: u64) -> ffi::Answer<ffi::Range> {
                    let ($kinds, Whole { list: l, table: t, offset, base_address }) = (self, whole);
                    unsafe {
                        ffi::$lookup(
                            l.ptr(), l.len(), t.ptr(), t.len(), t.base, l.encoding, offset,
                            base_address, $($lent,)* address,
                        )
                    }
                }

                fn lookups(
                    self,
                    whole: Whole,
                    addresses: &[u64],
                    found: &mut ffi::Found,
                ) -> ffi::Answer<u64> {
                    let ($kinds, Whole { list: l, table: t, offset, base_address }) = (self, whole);
                    unsafe {
                        ffi::$lookups(
                            l.ptr(), l.len(), t.ptr(), t.len(), t.base, l.encoding, offset,
                            base_address, $($lent,)* addresses.as_ptr(), addresses.len(), found,
                        )
                    }
                }

                unsafe fn coverage(
                    self,
                    whole: Whole,
                    begins: *mut ffi::Bounds,
                    ends: *mut ffi::Bounds,
                ) -> ffi::Answer<u64> {
                    let ($kinds, Whole { list: l, table: t, offset, base_address }) = (self, whole);
                    unsafe {
                        ffi::$coverage(
                            l.ptr(), l.len(), t.ptr(), t.len(), t.base, l.encoding, offset,
                            base_address, $($lent,)* begins, ends,
                        )
                    }
                }

                fn runs(
                    self,
                    whole: Whole,
                    begins: &mut [u64],
                    ends: &mut [u64],
                ) -> ffi::Answer<u64> {
                    let ($kinds, Whole { list: l, table: t, offset, base_address }) = (self, whole);
                    unsafe {
                        ffi::$runs(
                            l.ptr(), l.len(), t.ptr(), t.len(), t.base, l.encoding, offset,
                            base_address, $($lent,)* begins.as_mut_ptr(), begins.len(),
                            ends.as_mut_ptr(), ends.len(),
                        )
                    }
                }

                unsafe fn canonical(
                    self,
                    whole: Whole,
                    output: *mut u8,
                    len: usize,
                ) -> ffi::Answer<u64> {
                    let ($kinds, Whole { list: l, table: t, offset, base_address }) = (self, whole);
                    unsafe {
                        ffi::$canonical(
                            l.ptr(), l.len(), t.ptr(), t.len(), t.base, l.encoding, offset,
                            base_address, $($lent,)* output, len,
                        )
                    }
                }
            }
        };
    }

    calls! {
        DwarfKinds: yz_range_next, yz_range_next_in_profile, yz_range_next_raw, yz_range_lookup,
        yz_range_lookups, yz_range_coverage, yz_range_runs, yz_range_canonical, |_kinds|
    }

    calls! {
        &KindTable: yz_range_next_by, yz_range_next_in_profile_by, yz_range_next_raw_by,
        yz_range_lookup_by, yz_range_lookups_by, yz_range_coverage_by, yz_range_runs_by,
        yz_range_canonical_by,
        |kinds| kinds.bytes.as_ptr(), kinds.bytes.len()
    }
}
