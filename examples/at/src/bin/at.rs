//! `at FILE ADDRESS`: which routine ran at an address, and where each value lived.

use std::path::Path;
use std::process::ExitCode;
use yeltzarun_at::program::Program;
use yeltzarun_at::wrong::Wrong;
use yeltzarun_at::{LEGEND, command, scope, text};

const USAGE: &str = "\
at FILE ADDRESS [--split SPLIT].. [--kinds KINDS]

Prints the routine of the ELF file FILE that holds ADDRESS, the routines inlined there, innermost first, and
for each of their parameters and variables in scope where it lives at the address, or that it is nowhere.

ADDRESS   of the file: decimal, or hexadecimal after 0x. Where a program was loaded elsewhere, take that off
SPLIT     a .dwo or .dwp file of FILE. Without one the .dwo files are those that FILE's attributes name
KINDS     for FILE of a compiler that has codes of its own for the kinds of range list entries: a file of 256
          bytes, at each code the number that DWARF 5 has for its kind, 0 to 7, or 255 where it has none

Exit status: 0 found, 1 not there, 2 bad use, 3 unreadable file, 4 refused, 5 something that a list is read
with is missing. With 4 and 5 what could be read is printed, and what could not.
";

fn main() -> ExitCode {
    command::run(USAGE, |words| {
        let words = command::sorted(words)?;
        let [file, address] = words.plain[..] else { return Err(Wrong::Use(USAGE.into())) };
        let address = command::number(address)?;
        let program = Program::open(Path::new(file), &words.split, words.kinds)?;
        let answer = scope::at(&program, address);
        for wrong in &answer.wrongs {
            eprintln!("at: {wrong}");
        }
        Ok((format!("{}{LEGEND}", text::answer(address, &answer)), answer.status()))
    })
}
