// Stands for gimli's crate root. It names the modules and computes nothing, so
// it can't change an answer: every answer comes from the modules it names.
//
// `common`, `endianity`, `leb128` and the files under `read/` are gimli's own,
// unchanged. The lint settings silence remarks on them and have no effect on
// the code.

#![allow(dead_code, unused_imports)]

extern crate alloc;

pub mod common;
pub mod constants;
pub mod endianity;
pub mod leb128;
pub mod read;

pub mod oracle_api;

// The reference is gimli on a 64-bit machine, where its offsets are 64 bits.
const _: () = assert!(usize::BITS == 64);
