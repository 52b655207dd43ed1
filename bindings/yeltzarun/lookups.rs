//! What several addresses come to.

use super::ffi;
use super::{MOST_ADDRESSES, Result};

/// What several addresses come to that are looked up in one reading of a list.
#[derive(Debug, Clone, PartialEq, Eq)]
pub struct Lookups<T> {
    /// The answer of each address, in their order: that of a lookup of this address alone, found, not
    /// there or refused.
    pub found: Vec<Result<Option<T>>>,
    /// How many entries were read, as a walk counts them: as many as the longest of the single lookups
    /// reads; 0 where there are no addresses, and where the list could not be opened.
    pub entries: u64,
}

impl<T> Lookups<T> {
    /// What a call puts into its places for so many addresses, each item made of what is found.
    pub(super) fn made(
        addresses: &[u64],
        call: impl FnOnce(&mut ffi::Found) -> ffi::Answer<u64>,
        item: impl Fn(ffi::Location) -> T,
    ) -> Result<Lookups<T>> {
        // A result that no library gives: a place that is not written has no answer.
        let unwritten = ffi::Answer {
            result: u32::MAX,
            refusal: 0,
            refusal_value: 0,
            item: ffi::Location::default(),
        };
        let mut places = [unwritten; MOST_ADDRESSES];
        let entries = call(&mut places).done()?;
        let answers = places.iter().take(addresses.len());
        let found = answers.map(|a| Ok(a.done_unless(ffi::NOT_THERE)?.map(&item))).collect();
        Ok(Lookups { found, entries })
    }
}
