//! Looks stacks of addresses up, each in one reading of a list. The answers are those
//! of single lookups by gimli's walk, and by the model at size 3, and so is the number
//! of entries read: the most that one of these lookups reads. A stack is counted by
//! what ends its reading.

use generator::{Kind, ListCase, READ, Random};
use oracle::oracle_api::{Answer, Converted, Form, List, Yielded};

use crate::built;
use crate::differ::{self, MOST_ADDRESSES, Met, Port, kind_and_version, list_of, size_not_read};
use crate::measure::Walk;
use crate::model::Model;

/// A seed's other numbers.
const STACKS: u64 = 0x737461636b73;

/// A list of the other parts: any, one with default locations, or one of many ranges.
pub fn list(port: &impl Port, seed: u64, met: &mut Met) -> Result<(), String> {
    let r = &mut Random::new(seed ^ STACKS);
    let mut case = match r.below(4) {
        0 | 1 => generator::list_case(r, &READ),
        2 => generator::default_list(r.next()),
        _ => many_ranges(r, &generator::KINDS),
    };
    spoil(r, &mut case);
    some(port, &list_of(&case), r, met).map_err(|error| format!("{error}\n{case:x?}"))
}

/// A list of one of the kinds with up to 80 ranges, in every order, overlapping,
/// touching, twice the same.
pub fn many_ranges(r: &mut Random, kinds: &[Kind]) -> ListCase {
    loop {
        let list = built::list_case_of(r, &READ, |r| 1 + r.below(80) as usize);
        if kinds.contains(&list.kind) {
            return list;
        }
    }
}

/// Has some lists begin past their section's end, or gives them a size that isn't read.
pub fn spoil(r: &mut Random, case: &mut ListCase) {
    let length = list_of(case).section().len() as u64;
    match r.below(32) {
        0 => case.offset = length + 1 + r.below(2),
        1 => case.address_size = size_not_read(r),
        _ => {}
    }
}

/// Two stacks in a list.
pub fn some(port: &impl Port, list: &List, r: &mut Random, met: &mut Met) -> Result<(), String> {
    let answers = Walk::answers(list);
    for _ in 0..2 {
        let (addresses, fill) = (addresses(r, &answers), r.next());
        one(port, list, &addresses, fill, met)?;
    }
    Ok(())
}

/// 0, 2^64 - 1, and the borders of what a short list yields.
pub fn borders(port: &impl Port, list: &List, met: &mut Met) -> Result<(), String> {
    let mut addresses = vec![0, u64::MAX];
    for (answer, _) in Walk::answers(list) {
        if let Answer::Entry(Yielded { begin, end, .. }) = answer {
            addresses.extend([begin, end - 1, end]);
        }
    }
    addresses.sort();
    let fill = 0x5555_5555_5555_5555;
    met.measured_at(list.address_size, |met| differ::stack(port, list, &addresses, fill, met))
        .map_err(|error| format!("{error}\n{list:x?}"))
}

fn one(
    port: &impl Port,
    list: &List,
    addresses: &[u64],
    fill: u64,
    met: &mut Met,
) -> Result<(), String> {
    let descends = addresses.windows(2).any(|pair| pair[0] > pair[1]);
    let equal = addresses.windows(2).any(|pair| pair[0] == pair[1]);
    let many = addresses.len() > MOST_ADDRESSES;
    match (many, descends) {
        (true, true) => met.met("stack of more than 64, descending".into()),
        (true, false) => met.met("stack of more than 64".into()),
        (false, true) => met.met("stack, descending".into()),
        (false, false) => {
            met.met(format!("stack of {:2}", addresses.len()));
            if !addresses.is_empty() {
                let (what, how) = (kind_and_version(list), how(list, addresses));
                met.met(format!("{what} read up to {how}"));
            }
            if equal {
                met.met("stack with equal addresses".into());
            }
        }
    }
    let compare = |met: &mut Met| differ::stack(port, list, addresses, fill, met);
    if READ.contains(&list.address_size) {
        return met.measured_at(list.address_size, compare);
    }
    met.leaving_out(compare)
}

/// Addresses in ascending order: of all that is yielded, or of a few ranges, some of
/// them equal; one stack in eight has a pair that descends.
fn addresses(r: &mut Random, answers: &[(Answer<Yielded>, u64)]) -> Vec<u64> {
    let ranges: Vec<Yielded> = answers
        .iter()
        .filter_map(|&(answer, _)| match answer {
            Answer::Entry(entry) => Some(entry),
            _ => None,
        })
        .collect();
    let length = match r.below(16) {
        0 => r.pick(&[66, 127, 128, 256, 320]),
        at => [0, 1, 2, 3, 8, 63, 64, 65, 1, 2, 3, 8, 63, 64, 64][at as usize - 1],
    };
    let (held_alone, few) = (r.one_in(1, 4), r.one_in(1, 4));
    let below = (if few { 3 } else { ranges.len() }).min(ranges.len()) as u64;
    let mut addresses: Vec<u64> = Vec::new();
    while addresses.len() < length {
        let address = match r.below(16) {
            0 | 1 if !addresses.is_empty() => r.pick(&addresses),
            2 if !held_alone => r.pick(&[0, 1, u64::MAX - 1, u64::MAX]),
            3 if !held_alone => r.next() >> r.below(64),
            _ if below == 0 => r.next() >> r.below(64),
            _ => {
                let Yielded { begin, end, .. } = ranges[r.below(below) as usize];
                match r.below(if held_alone { 3 } else { 5 }) {
                    0 => begin,
                    1 => end - 1,
                    2 => begin + r.below(end - begin),
                    3 => end,
                    _ => begin.wrapping_sub(1),
                }
            }
        };
        addresses.push(address);
    }
    addresses.sort();
    if length > 1 && r.one_in(1, 8) {
        let any = 1 + r.below(length as u64 - 1) as usize;
        descend(&mut addresses, r.pick(&[1, length - 1, any]));
    }
    addresses
}

/// Lets the pair that ends at a place descend, and no other.
fn descend(addresses: &mut [u64], at: usize) {
    if addresses[at - 1] < addresses[at] {
        addresses.swap(at - 1, at);
    } else if addresses[at] > 0 {
        addresses[at] -= 1;
    } else {
        addresses[at - 1] = 1;
    }
}

/// What ends the reading, by the model.
fn how(list: &List, addresses: &[u64]) -> &'static str {
    let (mut waiting, length) = (addresses.to_vec(), list.section().len() as u64);
    let Ok(mut walk) = Model.open(list) else { return "the opening" };
    while !waiting.is_empty() {
        let (step, after) = Model.step(list, None, walk);
        match step {
            Answer::Entry((Form::Default, Converted::Entry(_))) => {}
            Answer::Entry((_, Converted::Entry(entry))) => {
                waiting.retain(|&address| !entry.holds(address));
            }
            Answer::Entry((_, Converted::Refused(_))) => return "a failed lookup",
            Answer::Entry(_) => {}
            Answer::End if walk.place < length => return "the end mark",
            Answer::End => return "the section's end",
            Answer::Refused(_) => return "a raw refusal",
        }
        walk = after;
    }
    "the last address"
}
