// Stands for gimli's `read` module root. It names the files below it and
// re-exports what they ask of one another, and computes nothing, so it can't
// change an answer.

pub mod error;
pub mod expression;
pub mod section;

pub mod addr;
pub mod endian_slice;
pub mod lists;
pub mod loclists;
pub mod reader;
pub mod rnglists;

pub use self::addr::*;
pub use self::endian_slice::EndianSlice;
pub use self::error::{Error, Result};
pub use self::expression::Expression;
pub use self::loclists::*;
pub use self::reader::{Reader, ReaderOffset, ReaderOffsetId};
pub use self::rnglists::*;
pub use self::section::Section;

pub(crate) use self::reader::ReaderAddress;
pub(crate) use self::rnglists::RawRange;
