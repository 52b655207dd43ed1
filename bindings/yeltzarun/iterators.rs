//! Walks as iterators, as gimli has them: an item is an answer or a refusal.

use super::{
    AddrEntryIter, AddrHeader, AddrHeaderIter, Kinds, LocListIter, LocationListEntry, Range,
    RawLocListEntry, RawLocListIter, RawRngListEntry, RawRngListIter, Result, RngListIter,
};

macro_rules! iterators {
    ($($walk:ident $(<$kinds:ident>)?, $item:ty;)*) => {
        $(/// After a refusal there may be further items, where the walk's own `next` says so; there
        /// is always an end.
        impl<'a, $($kinds: Kinds)?> Iterator for $walk<'a, $($kinds)?> {
            type Item = Result<$item>;

            fn next(&mut self) -> Option<Self::Item> {
                $walk::next(self).transpose()
            }
        })*
    };
}

iterators! {
    AddrHeaderIter, AddrHeader<'a>;
    AddrEntryIter, u64;
    RawRngListIter<K>, RawRngListEntry;
    RngListIter<K>, Range;
    RawLocListIter, RawLocListEntry<'a>;
    LocListIter, LocationListEntry<'a>;
}

/// A walk as an iterator in the profile: an item is what the walk's `next_in_profile` answers.
#[derive(Debug)]
pub struct InProfile<'w, W> {
    walk: &'w mut W,
}

macro_rules! in_profile {
    ($($walk:ident $(<$kinds:ident>)?, $item:ty;)*) => {
        $(impl<'a, $($kinds: Kinds)?> $walk<'a, $($kinds)?> {
            /// The items in the profile, from here on; the walk goes with them.
            pub fn in_profile(&mut self) -> InProfile<'_, Self> {
                InProfile { walk: self }
            }
        }

        /// After a refusal there may be further items, where the walk's own `next_in_profile` says so;
        /// there is always an end.
        impl<'a, $($kinds: Kinds)?> Iterator for InProfile<'_, $walk<'a, $($kinds)?>> {
            type Item = Result<$item>;

            fn next(&mut self) -> Option<Self::Item> {
                self.walk.next_in_profile().transpose()
            }
        })*
    };
}

in_profile! {
    RngListIter<K>, Range;
    LocListIter, LocationListEntry<'a>;
}
