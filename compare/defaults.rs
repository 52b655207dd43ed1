//! Looks addresses up in location lists with default locations. The answers are
//! gimli's by `measure::lookup`, and the model's at size 3; each lookup is counted by
//! how its answer comes about, since what a default location has to do with it
//! doesn't show in the answer.

use generator::{ListCase, Random};
use oracle::oracle_api::*;

use crate::differ::{self, Met, Port, address_near, kind_and_version, list_of};
use crate::measure::Walk;
use crate::model::Model;

/// A seed's other numbers.
const DEFAULTS: u64 = 0x64656661756c74;

/// The ends of a default location, and addresses at the borders of what is yielded.
pub fn list(port: &impl Port, case: &ListCase, seed: u64, met: &mut Met) -> Result<(), String> {
    let list = &list_of(case);
    let r = &mut Random::new(seed ^ DEFAULTS);
    let answers = Walk::answers(list);
    let borders = [(); 4].map(|()| address_near(r, &answers));
    met.measured_at(list.address_size, |met| {
        for address in [0, u64::MAX - 1, u64::MAX].into_iter().chain(borders) {
            met.met(format!("{} {}", kind_and_version(list), how(list, address)));
            differ::lookup(port, list, address, met)?;
        }
        Ok(())
    })
}

/// How the answer to a lookup comes about, by the model.
fn how(list: &List, address: u64) -> String {
    let mut walk = Model.open(list).expect("a place of the section");
    let (mut defaults, length) = (0, list.section().len() as u64);
    let by = loop {
        let (step, after) = Model.step(list, None, walk);
        match step {
            Answer::Entry((Form::Default, Converted::Entry(_))) => defaults += 1,
            Answer::Entry((_, Converted::Entry(entry))) if entry.holds(address) => {
                let all = (entry.begin, entry.end) == (0, u64::MAX);
                break if all { "a bounded entry, 0 to 2^64 - 1" } else { "a bounded entry" };
            }
            Answer::Entry((_, Converted::Refused(_))) => break "a failed lookup",
            Answer::Entry(_) => {}
            Answer::End if walk.place < length => break "the end mark",
            Answer::End => break "the section's end",
            Answer::Refused(_) => break "a raw refusal",
        }
        walk = after;
    };
    let at = if address == u64::MAX { " of 2^64 - 1" } else { "" };
    let behind = match defaults {
        0 => "",
        1 => " behind a default",
        _ => " behind several defaults",
    };
    format!("lookup{at}{behind}: {by}")
}
