//! Marks of a walk.

use super::ffi;
use super::{Kinds, LocListIter, RawLocListIter, RawRngListIter, Result, RngListIter};
use core::ops::{Deref, DerefMut};

/// A walk of a list, which can have marks: one of the four here, and no other type.
pub trait ListWalk: words::Words {}

mod words {
    use super::ffi;

    pub trait Words {
        /// The walk as the library has it.
        fn words(&mut self) -> &mut ffi::Walk;
    }
}

macro_rules! walks {
    ($($walk:ident $(<$kinds:ident>)?, $($words:ident).+;)*) => {
        $(impl<$($kinds: Kinds)?> ListWalk for $walk<'_, $($kinds)?> {}

        impl<$($kinds: Kinds)?> words::Words for $walk<'_, $($kinds)?> {
            fn words(&mut self) -> &mut ffi::Walk {
                &mut self.$($words).+
            }
        })*
    };
}

walks! {
    RawRngListIter<K>, walk;
    RngListIter<K>, raw.walk;
    RawLocListIter, walk;
    LocListIter, raw.walk;
}

/// A walk and its eight marks, numbered 0 to 7: a list can be left and returned to. Setting a mark
/// stores the walk; a return brings it back exactly, with its base address and its count of entries.
/// To the same reading calls, with no return among them, it then answers as it did after the setting.
///
/// All that the walk has is at hand by [`Deref`] and [`DerefMut`]; as an iterator it is `by_ref()`.
/// Setting and returning read no section, so that any walk is stored. Where another walk is put in
/// the place of this one, the marks stay, and a return gives it their place in its own sections.
#[derive(Debug, Clone)]
pub struct Marked<W> {
    walk: W,
    marks: ffi::Marks,
}

impl<W: ListWalk> Marked<W> {
    /// The walk, with no mark set.
    pub fn new(walk: W) -> Marked<W> {
        Marked { walk, marks: ffi::Marks::default() }
    }

    /// Stores the walk in a mark, in place of what was there. The walk and the other marks stay as
    /// they were. [`NoSuchMark`](super::Error::NoSuchMark) for a number above 7; nothing else is
    /// refused, and then all stays.
    pub fn set_mark(&mut self, number: u64) -> Result<()> {
        ffi::yz_mark_set(number, self.walk.words(), &mut self.marks).done()?;
        Ok(())
    }

    /// Brings back the walk that a mark stores. All marks stay as they were, this one too.
    /// [`NoSuchMark`](super::Error::NoSuchMark) for a number above 7 and for a mark that is not set;
    /// nothing else is refused, and then all stays.
    pub fn return_to(&mut self, number: u64) -> Result<()> {
        ffi::yz_mark_return(number, &self.marks, self.walk.words()).done()?;
        Ok(())
    }

    /// The walk, without its marks.
    pub fn into_walk(self) -> W {
        self.walk
    }
}

impl<W> Deref for Marked<W> {
    type Target = W;

    fn deref(&self) -> &W {
        &self.walk
    }
}

impl<W> DerefMut for Marked<W> {
    fn deref_mut(&mut self) -> &mut W {
        &mut self.walk
    }
}
