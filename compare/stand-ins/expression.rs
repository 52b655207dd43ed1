// Stands for gimli's `read/op.rs`, of which only the type `Expression` is used.
// It can't change an answer: the type is gimli's own, cut from that file by
// `build-oracle` and included here, and it holds the bytes it was given.

use crate::read::Reader;

include!("expression.cut");
