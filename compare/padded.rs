//! Compares how long LEB128 numbers are, and which numbers and entries are
//! padded: every short string, and numbers and lists with many padded numbers.
//! gimli tells neither; values, places and entries are gimli's, or the model's at
//! size 3, length and padding the model's.

use generator::{ListCase, Random};
use oracle::oracle_api::*;

use crate::differ::{Met, Port, kind_and_version, list_of, number, size_not_read};
use crate::measure::{Walk, noted};
use crate::model::{self, Model};

/// Some bytes read as a number: alone, behind others, and from a place past the
/// section's end.
pub fn numbers(port: &impl Port, bytes: &[u8], before: &[u8], met: &mut Met) -> Result<(), String> {
    number(port, bytes, 0, met)?;
    number(port, &[before, bytes].concat(), before.len() as u64, met)?;
    number(port, bytes, u64::MAX - before.len() as u64, met)
}

/// How many zeros follow a short string: as many as an expression of one byte's
/// length may ask for, and those for what stands before it.
const ZEROS: usize = 0x7f + 8;

/// Every kind of entry at size 1 whose operands begin with a short string, and the
/// string as a bare pair.
pub fn short_entries(port: &impl Port, bytes: &[u8], met: &mut Met) -> Result<(), String> {
    let lists = [
        (Kind::Ranges, 4, [].as_slice()),
        (Kind::Ranges, 5, &[1, 2, 3, 4, 5, 6, 7]),
        (Kind::Locations, 4, &[]),
        (Kind::Locations, 5, &[1, 2, 3, 4, 5, 6, 7, 8]),
        (Kind::SplitLocations, 4, &[1, 2, 3, 4, 5, 6, 7, 8]),
    ];
    // A byte before all, the code, the string.
    let mut section = [0x80; 5 + ZEROS];
    section[2..].fill(0);
    section[2..][..bytes.len()].copy_from_slice(bytes);
    let mut counts = [("raw entry", 0), ("raw entry, padded", 0), ("raw end or refusal", 0)];
    for (kind, version, codes) in lists {
        for &code in if codes.is_empty() { &[0] } else { codes } {
            section[1] = code;
            let place = if code == 0 { 2 } else { 1 };
            let list = List {
                kind,
                old: &section,
                new: &section,
                offset: place,
                version,
                address_size: 1,
                dwarf64: false,
                big_endian: false,
                base_address: 0,
                table: &[],
                table_base: 0,
            };
            let from = State { place, base_address: 0, entries: 0 };
            let raw = RawWalk::open(&list).map(|mut walk| walk.next());
            let answer = raw.expect("a place of the section").map(|raw| noted(&list, place, raw));
            let met_as = match answer {
                Answer::Entry(noted) => usize::from(noted.padded),
                _ => 2,
            };
            counts[met_as].1 += 1;
            // The walk after it is the model's: gimli's place is in its debug text,
            // which takes long to make.
            let due = (answer, Model.next_raw(&list, from).1);
            met.same("next_raw", &due, &port.next_raw(&list, from))
                .map_err(|error| format!("{error}\n{list:x?}"))?;
        }
    }
    for (name, count) in counts {
        *met.names.entry(name.into()).or_default() += count;
    }
    Ok(())
}

/// Which of an entry's numbers are padded, for the first and the third " 1 3".
pub fn which(bits: u8) -> String {
    let numbers = (1..=3).filter(|number| bits >> (number - 1) & 1 == 1);
    numbers.map(|number| format!(" {number}")).collect()
}

/// `next_raw` on a walk made by hand: whether there is an entry, and where it
/// leaves the walk.
fn raw_at(
    port: &impl Port,
    list: &List,
    walk: &mut Walk,
    from: State,
    met: &mut Met,
) -> Result<(bool, State), String> {
    let due = (walk.next_raw(), walk.state());
    let got = port.next_raw(list, from);
    let what = kind_and_version(list);
    met.met(match due.0 {
        Answer::Entry(noted) => {
            let bits = model::entry(list, from.place).map_or(0, |(_, bits)| bits);
            let how =
                if bits == 0 { ", not padded".into() } else { format!(", padded{}", which(bits)) };
            format!("{what} raw {:?}{how}", noted.entry.form)
        }
        Answer::End => format!("{what} raw end"),
        Answer::Refused(refusal) => format!("{what} raw refused {}", refusal.number),
    });
    met.same("next_raw", &due, &got).map_err(|error| format!("{error}\nat {from:x?}"))?;
    Ok((matches!(due.0, Answer::Entry(_)), got.1))
}

/// A list's entries one after the other, and what stands at its other places.
fn raws(port: &impl Port, list: &List, r: &mut Random, met: &mut Met) -> Result<(), String> {
    let by_hand = |place| State { place, base_address: 0, entries: 0 };
    let mut state = by_hand(list.offset);
    let mut walk = Walk::by_hand(list, state);
    let mut others = 0;
    while others < 2 {
        let (is_entry, after) = raw_at(port, list, &mut walk, state, met)?;
        state = after;
        others += u32::from(!is_entry);
    }
    for _ in 0..8 {
        let from = by_hand(r.below(list.section().len() as u64 + 1));
        raw_at(port, list, &mut Walk::by_hand(list, from), from, met)?;
    }
    Ok(())
}

/// A seed's other numbers.
const PADDED: u64 = 0x706164646564;

/// Raw entries of a list. Now and then it has an address size that isn't read, too,
/// and every call is refused with 6.
pub fn list(port: &impl Port, case: &ListCase, seed: u64, met: &mut Met) -> Result<(), String> {
    let list = &list_of(case);
    let r = &mut Random::new(seed ^ PADDED);
    if r.one_in(1, 64) {
        let list = &List { address_size: size_not_read(r), ..*list };
        met.leaving_out(|met| raws(port, list, r, met))?;
    }
    met.measured_at(list.address_size, |met| raws(port, list, r, met))
}
