//! `lists FILE`: every list that an attribute names, with the entry that names it.

use std::path::Path;
use std::process::ExitCode;
use yeltzarun_at::program::Program;
use yeltzarun_at::wrong::Wrong;
use yeltzarun_at::{command, listing};

const USAGE: &str = "\
lists FILE [--split SPLIT].. [--kinds KINDS]

Prints every range list and location list that an attribute in the ELF file FILE names, with the entry that
names it, its ranges and its operations, and what it is read with. Each range has the number of its entry in the
list, counted from 1, entries that come to no range included. An entry is padded where one of its LEB128 numbers
has a shorter form; such an entry is printed even if it comes to no range.

SPLIT     a .dwo or .dwp file of FILE. Without one the .dwo files are those that FILE's attributes name
KINDS     for FILE of a compiler that has codes of its own for the kinds of range list entries: a file of 256
          bytes, at each code the number that DWARF 5 has for its kind, 0 to 7, or 255 where it has none

Exit status: 0 every list was read, 1 no attribute names one, 2 bad use, 3 unreadable file, 4 refused,
5 something that a list is read with is missing. With 4 and 5 what could be read is printed, and what could not.
";

fn main() -> ExitCode {
    command::run(USAGE, |words| {
        let words = command::sorted(words)?;
        let [file] = words.plain[..] else { return Err(Wrong::Use(USAGE.into())) };
        let listing = listing::lists(&Program::open(Path::new(file), &words.split, words.kinds)?);
        let status = listing.status();
        Ok((listing.text, status))
    })
}
