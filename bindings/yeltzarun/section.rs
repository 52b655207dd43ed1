//! The sections.

use super::{EndianSlice, RunTimeEndian};

macro_rules! sections {
    ($($(#[$doc:meta])* $name:ident;)*) => {
        $($(#[$doc])*
        #[derive(Debug, Default, Clone, Copy)]
        pub struct $name<'a> {
            pub(super) section: EndianSlice<'a>,
        }

        impl<'a> $name<'a> {
            /// The section's bytes and their order.
            pub fn new(section: &'a [u8], endian: RunTimeEndian) -> Self {
                Self { section: EndianSlice::new(section, endian) }
            }

            /// All of the section, to be read from the front.
            pub fn reader(&self) -> EndianSlice<'a> {
                self.section
            }
        })*
    };
}

sections! {
    /// `.debug_addr`.
    DebugAddr;
    /// `.debug_ranges`.
    DebugRanges;
    /// `.debug_rnglists`.
    DebugRngLists;
    /// `.debug_loc`.
    DebugLoc;
    /// `.debug_loclists`.
    DebugLocLists;
}
