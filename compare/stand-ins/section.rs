// Stands for gimli's trait over sections, with the three functions that the
// files used here define or call. It can't change an answer: no function of
// the comparison calls it. Looking up where an error arose is error reporting
// alone; here it finds nothing.

use crate::common::SectionId;
use crate::read::{Reader, ReaderOffsetId};

pub trait Section<R> {
    fn id() -> SectionId;

    fn reader(&self) -> &R
    where
        R: Reader;

    fn lookup_offset_id(&self, _: ReaderOffsetId) -> Option<(SectionId, R::Offset)>
    where
        R: Reader,
    {
        None
    }
}
