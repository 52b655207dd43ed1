//! Which routine ran at an address, and where each of its values lived.
//!
//! [`lists`] reads every range list, location list, address table and list offset, all through the
//! proved library. ELF files are read by `object` ([`file`]), units, entries, names and operations
//! by `gimli` ([`unit`], [`operations`]); gimli is handed none of the sections with lists or tables.
//! [`program`] finds the units and their split parts, [`scope`] answers for an address, [`listing`]
//! prints every list that an attribute names.
//!
//! A list is read with what attributes say of its unit; what they don't say is never filled in.

pub mod command;
pub mod file;
pub mod listing;
pub mod lists;
pub mod operations;
pub mod program;
pub mod scope;
pub mod text;
pub mod unit;
pub mod wrong;

/// Bytes of a file, with its byte order. Files stay in memory as long as the program runs.
pub type Reader = gimli::EndianSlice<'static, gimli::RunTimeEndian>;
/// The value of an attribute.
pub type Value = gimli::AttributeValue<Reader>;

/// The last lines of every answer.
pub const LEGEND: &str = "\
[proved]: ranges, locations, addresses and list offsets read by the proved library.
All else, as names, units, plain attributes and operations, is read by gimli and object and is not proved.
";
