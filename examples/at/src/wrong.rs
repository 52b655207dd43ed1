//! What can go wrong, and the exit statuses.

use std::fmt;

/// A routine was found; of `lists`: every list was read.
pub const FOUND: u8 = 0;
/// No routine holds the address; of `lists`: no attribute names a list.
pub const NOT_THERE: u8 = 1;
/// The command line is wrong.
pub const BAD_USE: u8 = 2;
/// A file is not there, is no ELF file, has no debug information or has some that can't be parsed.
pub const UNREADABLE: u8 = 3;
/// The proved library refused a list, a table or a list offset.
pub const REFUSED: u8 = 4;
/// A list is named, but an attribute, section or file that it is read with is missing.
pub const MISSING: u8 = 5;

/// Why there is no answer, or only a part of one.
#[derive(Debug, Clone, PartialEq, Eq, Hash)]
pub enum Wrong {
    Use(String),
    Unreadable(String),
    Refused { what: String, refusal: yeltzarun::Error },
    Missing(String),
}

/// What a step comes to.
pub type Outcome<T> = Result<T, Wrong>;

impl Wrong {
    pub fn status(&self) -> u8 {
        match self {
            Wrong::Use(_) => BAD_USE,
            Wrong::Unreadable(_) => UNREADABLE,
            Wrong::Refused { .. } => REFUSED,
            Wrong::Missing(_) => MISSING,
        }
    }

    /// A refusal of the library.
    pub fn refused(what: impl Into<String>) -> impl FnOnce(yeltzarun::Error) -> Wrong {
        move |refusal| Wrong::Refused { what: what.into(), refusal }
    }

    /// What gimli or object can't parse.
    pub fn parse<E: fmt::Display>(place: &str) -> impl FnOnce(E) -> Wrong {
        move |error| Wrong::Unreadable(format!("{place}: {error}"))
    }
}

impl fmt::Display for Wrong {
    fn fmt(&self, f: &mut fmt::Formatter<'_>) -> fmt::Result {
        match self {
            Wrong::Use(what) => write!(f, "{what}"),
            Wrong::Unreadable(what) => write!(f, "unreadable: {what}"),
            Wrong::Refused { what, refusal } => write!(f, "refused {refusal}: {what}"),
            Wrong::Missing(what) => write!(f, "missing: {what}"),
        }
    }
}
