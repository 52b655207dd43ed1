//! Compares the walks that refuse what breaks the profile. gimli has none: its raw
//! entries and its conversion tell all but the three refusals, which
//! `Walk::next_in_profile` adds; at size 3 the model is the measure, and elsewhere it
//! has to say the same. Every call is held with the walk that it leaves. A call is
//! counted by what ends it, since an entry that breaks the profile and one that is
//! passed over look alike to other calls.

use std::cmp::Ordering;

use generator::{ListCase, READ, Random};
use oracle::oracle_api::*;

use crate::added::Added;
use crate::differ::{Met, Noted, Port, kind_and_version, list_of, size_not_read, walk_by_hand};
use crate::marks;
use crate::measure::Walk;
use crate::model::{self, Model, Says};
use crate::padded::which;

/// A seed's other numbers.
const PROFILE: u64 = 0x70726f66696c65;

/// A list of the other parts, or one at the borders of the profile.
fn any_list(r: &mut Random) -> ListCase {
    match r.below(16) {
        0 => generator::list_case(r, &READ),
        1 => generator::padded_list(r.next()),
        2 => generator::default_list(r.next()),
        _ => generator::profile_list(r),
    }
}

/// Profile walks of a list.
pub fn list(port: &impl Port, seed: u64, met: &mut Met) -> Result<(), String> {
    let r = &mut Random::new(seed ^ PROFILE);
    let case = any_list(r);
    walks(port, &list_of(&case), r, met).map_err(|error| format!("{error}\n{case:x?}"))
}

/// Ordinary, raw and profile calls on one walk, with marks.
pub fn mixed(port: &impl Added, seed: u64, met: &mut Met) -> Result<(), String> {
    let case = any_list(&mut Random::new(!(seed ^ PROFILE)));
    marks::in_profile(port, &case, seed, met).map_err(|error| format!("{error}\n{case:x?}"))
}

/// Such a list of ranges, of bare pairs or of entries with kinds.
pub fn range_list(r: &mut Random, bare: bool) -> ListCase {
    loop {
        let case = any_list(r);
        if case.kind == generator::Kind::Ranges && (case.version <= 4) == bare {
            return case;
        }
    }
}

/// From a list's opening, and from walks made by hand. Now and then the list has an
/// address size that isn't read, too.
fn walks(port: &impl Port, list: &List, r: &mut Random, met: &mut Met) -> Result<(), String> {
    if r.one_in(1, 64) {
        let list = &List { address_size: size_not_read(r), ..*list };
        met.met("in profile, other size".into());
        met.leaving_out(|met| walk(port, list, by_hand(r, list), met))?;
    }
    met.measured_at(list.address_size, |met| {
        opened(port, list, r, met)?;
        (0..3).try_for_each(|_| walk(port, list, by_hand(r, list), met))
    })
}

/// From a list's opening; half of the walks go on with another count.
pub fn opened(port: &impl Port, list: &List, r: &mut Random, met: &mut Met) -> Result<(), String> {
    let opened = Walk::open(list).map(|mut walk| walk.state());
    met.same("open", &opened, &port.open(list))?;
    let Ok(mut from) = opened else { return Ok(()) };
    if r.one_in(1, 2) {
        from.entries = walk_by_hand(r, list).entries;
    }
    walk(port, list, from, met)
}

/// A walk made by hand, half of them with a base address near the tombstone bound.
pub fn by_hand(r: &mut Random, list: &List) -> State {
    let mut walk = walk_by_hand(r, list);
    if r.one_in(1, 2) {
        walk.base_address = generator::base_near_bound(r, list.address_size.max(1));
    }
    walk
}

/// Every call from a walk on up to the section's end, and three calls there.
pub fn walk(port: &impl Port, list: &List, from: State, met: &mut Met) -> Result<(), String> {
    let (mut walk, mut state, mut last) = (Walk::by_hand(list, from), from, 0);
    while last < 3 {
        last += u32::from(state.place >= list.section().len() as u64);
        if last < 2 {
            let how = how(list, state, met);
            met.met(format!("{} in profile: {how}", kind_and_version(list)));
        }
        let due = (walk.next_in_profile(), walk.state());
        assert_eq!(due, Model.next_in_profile(list, state), "oracle and model, {list:x?}");
        met.same("next_in_profile", &due, &port.next_in_profile(list, state))
            .map_err(|error| format!("{error}\nat {state:x?}, from {from:x?}"))?;
        state = due.1;
    }
    Ok(())
}

/// One short list from its opening on.
pub fn short(port: &impl Port, list: &List, met: &mut Met) -> Result<(), String> {
    let from = State { place: list.offset, base_address: list.base_address, entries: 0 };
    met.measured_at(list.address_size, |met| walk(port, list, from, met))
        .map_err(|error| format!("{error}\n{list:x?}"))
}

/// What ends a call, by the model. An empty range that it passes over is counted.
fn how(list: &List, mut walk: State, met: &mut Met) -> String {
    loop {
        let (place, length) = (walk.place, list.section().len() as u64);
        let (answer, after) = Model.next_raw(list, walk);
        let Noted { entry, padded } = match answer {
            Answer::Entry(noted) => noted,
            Answer::End if place < length => return "the end mark".into(),
            Answer::End => return "the section's end".into(),
            Answer::Refused(refusal) => return format!("refused {}, raw", refusal.number),
        };
        walk = after;
        let form = entry.form;
        if padded {
            let (_, bits) = model::entry(list, place).expect("an entry");
            return format!("refused 15, {form:?}, padded{}", which(bits));
        }
        match model::says(list, walk.base_address, entry) {
            Err(refusal) => return format!("refused {}, {form:?}", refusal.number),
            Ok(Says::Base(address)) => walk.base_address = address,
            Ok(Says::Bounds { dead: Some(dead), begin, end }) => {
                let order = match begin.cmp(&end) {
                    Ordering::Less => "in order",
                    Ordering::Equal => "empty",
                    Ordering::Greater => "backward",
                };
                return format!("refused 16, {form:?}, {dead}, {order}");
            }
            Ok(Says::Bounds { begin, end, .. }) if begin > end => {
                return format!("refused 17, {form:?}");
            }
            Ok(Says::Bounds { begin, end, .. }) if begin == end => {
                met.met("in profile: an empty range passed over".into());
            }
            Ok(Says::Bounds { .. }) => return format!("{form:?}"),
        }
    }
}
