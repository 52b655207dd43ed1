//! The command line.

use crate::wrong::{BAD_USE, Outcome, UNREADABLE, Wrong};
use std::io::{ErrorKind, Write};
use std::path::Path;
use std::process::ExitCode;

/// Runs a program on its words: what it prints, and its exit status.
pub fn run(usage: &str, answer: impl FnOnce(&[String]) -> Outcome<(String, u8)>) -> ExitCode {
    let mut words = Vec::new();
    for word in std::env::args_os().skip(1) {
        match word.into_string() {
            Ok(word) => words.push(word),
            Err(word) => {
                eprintln!("not text: {}", word.display());
                return ExitCode::from(BAD_USE);
            }
        }
    }
    if words.iter().any(|word| word == "--help" || word == "-h") {
        print!("{usage}");
        return ExitCode::SUCCESS;
    }
    match answer(&words) {
        Ok((text, status)) => match std::io::stdout().write_all(text.as_bytes()) {
            Ok(()) => ExitCode::from(status),
            // The reader has seen enough.
            Err(error) if error.kind() == ErrorKind::BrokenPipe => ExitCode::from(status),
            Err(error) => {
                eprintln!("not printed: {error}");
                ExitCode::from(UNREADABLE)
            }
        },
        Err(wrong) => {
            eprint!("{wrong}{}", if matches!(wrong, Wrong::Use(_)) { "" } else { "\n" });
            ExitCode::from(wrong.status())
        }
    }
}

/// The words of a command line.
#[derive(Default)]
pub struct Words<'a> {
    /// Those without options.
    pub plain: Vec<&'a str>,
    /// The files that follow --split.
    pub split: Vec<&'a Path>,
    /// The file that follows --kinds.
    pub kinds: Option<&'a Path>,
}

pub fn sorted(words: &[String]) -> Outcome<Words<'_>> {
    let Words { mut plain, mut split, mut kinds } = Words::default();
    let mut words = words.iter();
    while let Some(word) = words.next() {
        match word.as_str() {
            option @ ("--split" | "--kinds") => {
                let Some(path) = words.next().map(Path::new) else {
                    return Err(Wrong::Use(format!("{option} lacks its file\n")));
                };
                if option == "--split" {
                    split.push(path);
                } else if kinds.replace(path).is_some() {
                    return Err(Wrong::Use("--kinds is there twice\n".into()));
                }
            }
            word if word.starts_with('-') && word.len() > 1 => {
                return Err(Wrong::Use(format!("no such option: {word}\n")));
            }
            word => plain.push(word),
        }
    }
    Ok(Words { plain, split, kinds })
}

/// A number below 2^64, decimal or after 0x hexadecimal.
pub fn number(word: &str) -> Outcome<u64> {
    let number = match word.strip_prefix("0x").or_else(|| word.strip_prefix("0X")) {
        Some(digits) if !digits.starts_with('+') => u64::from_str_radix(digits, 16),
        None if !word.starts_with('+') => word.parse(),
        _ => "".parse(),
    };
    number.map_err(|_| Wrong::Use(format!("not a number below 2^64: {word}\n")))
}
