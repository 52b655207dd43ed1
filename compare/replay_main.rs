//! Chooses calls, asks the oracle, and writes the two files of the crate
//! replay: the calls, a line for each, and each line again with the answers
//! below it. Prints how often each answer occurs. The same files come out each
//! time.
//!
//!   make-replay <calls> <answers>
//!
//! `crates/replay/src` says what a line means. Left out are the differences
//! that the scope lists: lists with other address sizes, offsets of lists whose
//! sum passes 2^64, and calls in which gimli refuses size 3.

mod replay_calls;
mod replay_cases;

use replay_calls::{Call, Met};
use std::collections::BTreeSet;

/// Keeps a call unless the same line is there already.
struct Kept {
    lines: BTreeSet<String>,
    calls: String,
    answers: String,
    met: Met,
}

impl Kept {
    fn keep(&mut self, call: &Call) {
        let mut met = Met::default();
        let Some(answers) = call.answers(&mut met) else { return };
        let line = call.line();
        if self.lines.insert(line.clone()) {
            self.calls += &line;
            self.answers += &line;
            self.answers += &answers;
            self.met.join(met);
        }
    }

    /// Keeps a call only if it meets something new.
    fn keep_new(&mut self, call: &Call) {
        let mut met = Met::default();
        if call.answers(&mut met).is_some() && met.more_than(&self.met) {
            self.keep(call);
        }
    }
}

fn main() {
    let words: Vec<String> = std::env::args().skip(1).collect();
    let [calls, answers] = words.as_slice() else {
        eprintln!("make-replay <calls> <answers>");
        std::process::exit(2);
    };
    let mut kept = Kept {
        lines: BTreeSet::new(),
        calls: String::new(),
        answers: String::new(),
        met: Met::default(),
    };
    replay_cases::made(&mut |call| kept.keep(call));
    replay_cases::drawn(&mut |call| kept.keep_new(call));
    std::fs::write(calls, &kept.calls).expect("the calls");
    std::fs::write(answers, &kept.answers).expect("the answers");
    kept.met.print();
    let lines = kept.answers.lines().count() - kept.lines.len();
    let size = kept.calls.len() + kept.answers.len();
    println!("{} lines of calls, {lines} answers, {size} bytes in all", kept.lines.len());
}
