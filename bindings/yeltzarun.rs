//! Range lists, location lists and address tables of DWARF 3 to 5: the static library that
//! `build-library` makes, behind the names of gimli.
//!
//! Every call ends and answers every input; what can't be read gets a numbered [`Error`]. A section
//! is a lent slice with a byte order; a list and the address table that it is read with have the
//! same one, or are refused with [`Error::MixedByteOrders`]. Every walk has an end, since opening
//! refuses an address size that isn't read. A walk is an [`Iterator`] too, as in gimli, and one that is
//! [`Marked`] can be left and returned to. A walk [`InProfile`] refuses three things more, which a
//! compiler may be held not to write. Up to [`MOST_ADDRESSES`] addresses are looked up in one reading
//! of a list, which gives [`Lookups`]. Range lists of a compiler that numbers the kinds of entries in its
//! own way are read by a [`KindTable`].
//!
//! A [`Coverage`] is held by value, 16 × [`LIMIT`] bytes wherever it stands. A call that makes one of
//! a list takes less than 70 × [`LIMIT`] bytes of stack, and 100 × where nothing is optimized; one
//! that writes runs or a canonical list takes less than 52 ×.
//!
//! A package uses it by `yeltzarun = { path = ".." }`, the path of this folder. Its build script links
//! the file that `YELTZARUN_LIBRARY` names, or the repository's `target/lib/libyeltzarun.a`, which
//! `build-library` proves and builds where the Rattle kit is at hand, or the one that pkg-config knows.
//!
//! ```
//! use yeltzarun::*;
//!
//! // A split location list of DWARF 4, and the address table that its entry points into.
//! let list = [0x03, 0x00, 0x08, 0x00, 0x00, 0x00, 0x01, 0x00, 0x50, 0x00];
//! let table = [12, 0, 0, 0, 5, 0, 4, 0, 0x10, 0, 0, 0, 0x20, 0, 0, 0];
//! let little = RunTimeEndian::Little;
//! let lists = LocationLists::new(DebugLoc::new(&list, little), DebugLocLists::default());
//! let encoding = Encoding { address_size: 4, format: Format::Dwarf32, version: 4 };
//! let (offset, base) = (LocationListsOffset(0), DebugAddrBase(8));
//! let debug_addr = DebugAddr::new(&table, little);
//!
//! let mut walk = lists.locations_dwo(offset, encoding, 0, &debug_addr, base)?;
//! while let Some(location) = walk.next()? {
//!     assert_eq!(location.range, Range { begin: 0x10, end: 0x18 });
//!     assert_eq!(location.data.bytes(), [0x50]);
//!     assert_eq!(walk.entries(), 1); // The list's first entry.
//! }
//! assert_eq!(walk.entries(), 2); // The end mark is one, too.
//!
//! let walk = lists.locations_dwo(offset, encoding, 0, &debug_addr, base)?;
//! assert_eq!(walk.filter_map(Result::ok).count(), 1);
//!
//! // A walk with marks: each call after a return answers as it did after the setting.
//! let mut walk = Marked::new(lists.locations_dwo(offset, encoding, 0, &debug_addr, base)?);
//! walk.set_mark(0)?;
//! let first = walk.next()?;
//! walk.return_to(0)?;
//! assert_eq!((walk.entries(), walk.next()?), (0, first));
//!
//! // How long a LEB128 number is, and whether it could be shorter; and whether one of an entry could.
//! let mut slice = EndianSlice::new(&[0x82, 0x00], little);
//! let number = slice.read_uleb128_with_length()?;
//! assert_eq!(number, Leb128 { value: 2, length: 2, padded: true });
//! let mut walk = lists.raw_locations_dwo(offset, encoding)?;
//! assert_eq!(walk.next_noted()?.map(|noted| noted.padded), Some(false));
//!
//! let dwo = DwarfFileType::Dwo;
//! let found = lists.lookup(offset, encoding, dwo, 0, &debug_addr, base, 0x18)?;
//! assert_eq!(found, None);
//! # Ok::<(), Error>(())
//! ```

#![warn(missing_docs)]

#[cfg(not(all(target_arch = "x86_64", target_pointer_width = "64")))]
compile_error!("the static library is for x86-64");

// The paths are the same where this file is a module of another crate.
#[path = "yeltzarun/addr.rs"]
mod addr;
#[path = "yeltzarun/common.rs"]
mod common;
#[path = "yeltzarun/coverage.rs"]
mod coverage;
#[path = "yeltzarun/entries.rs"]
mod entries;
#[path = "yeltzarun/error.rs"]
mod error;
#[path = "yeltzarun/ffi.rs"]
#[rustfmt::skip]
mod ffi;
#[path = "yeltzarun/iterators.rs"]
mod iterators;
#[path = "yeltzarun/kinds.rs"]
mod kinds;
#[path = "yeltzarun/lists.rs"]
mod lists;
#[path = "yeltzarun/loclists.rs"]
mod loclists;
#[path = "yeltzarun/lookups.rs"]
mod lookups;
#[path = "yeltzarun/marks.rs"]
mod marks;
#[path = "yeltzarun/reader.rs"]
mod reader;
#[path = "yeltzarun/rnglists.rs"]
mod rnglists;
#[path = "yeltzarun/section.rs"]
mod section;
#[path = "yeltzarun/walk.rs"]
mod walk;

pub use addr::{AddrEntryIter, AddrHeader, AddrHeaderIter};
pub use common::{
    DebugAddrBase, DebugAddrIndex, DebugAddrOffset, DebugLocListsBase, DebugLocListsIndex,
    DebugRngListsBase, DebugRngListsIndex, DwarfFileType, Encoding, Format, LocationListsOffset,
    RangeListsOffset, RunTimeEndian,
};
pub use coverage::{CANONICAL_MAX, CanonicalList, Coverage, SHEET_MAX, Sheet};
pub use entries::{Expression, LocationListEntry, Noted, Range, RawLocListEntry, RawRngListEntry};
pub use error::{Error, Result};
pub use ffi::{LIMIT, MARKS, MOST_ADDRESSES};
pub use iterators::InProfile;
pub use kinds::{DwarfKinds, KindTable, Kinds, NO_KIND};
pub use lists::ListsHeader;
pub use loclists::{LocListIter, LocationLists, RawLocListIter};
pub use lookups::Lookups;
pub use marks::{ListWalk, Marked};
pub use reader::{EndianSlice, Leb128, ReaderAddress};
pub use rnglists::{RangeLists, RawRngListIter, RngListIter};
pub use section::{DebugAddr, DebugLoc, DebugLocLists, DebugRanges, DebugRngLists};

/// The version of the interface that this wrapper is for.
pub const VERSION: u32 = 10;

/// The version of the library that is linked. Where it isn't [`VERSION`], its answers can't be
/// understood.
pub fn version() -> u32 {
    ffi::yz_version()
}
