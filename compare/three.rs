//! Lists of address size 3. The model is the measure; and so is gimli in two
//! ways, for it reads such a list up to the first address, and it reads the same
//! list written with size 4.

use generator::{Case, ListCase, Random};
use oracle::oracle_api::{self as gimli, *};

use crate::added::{self, Added};
use crate::built;
use crate::differ::{self, Met, Noted, Port, address_near, follow, kind_and_version, list_of};
use crate::measure::noted_answers;

/// Walks one short list as every kind, version 4 and 5, in both orders, answers
/// and counts. No address fits in, so the list is also walked as what follows the
/// beginning of an entry: its first byte is the last one of an address.
pub fn short(port: &impl Port, bytes: &[u8], met: &mut Met) -> Result<(), String> {
    let lists = [
        (Kind::Ranges, 4, [1, 0, 0, 2, 0xff].as_slice()),
        (Kind::Ranges, 5, &[7, 0xf0, 0xff]),
        (Kind::Locations, 4, &[1, 0, 0, 2, 0xff]),
        (Kind::Locations, 5, &[8, 0xf0, 0xff]),
        (Kind::SplitLocations, 4, &[8, 0xf0, 0xff]),
        (Kind::SplitLocations, 5, &[8, 0xf0, 0xff]),
    ];
    let tables = [(false, [0x10, 0, 0, 0x18, 0, 0]), (true, [0, 0, 0x10, 0, 0, 0x18])];
    let orders = tables.iter().flat_map(|table| [0xfffff8, 0xfffffe].map(|base| (table, base)));
    for (kind, version, begun) in lists {
        for section in [bytes, &[begun, bytes].concat()] {
            for (&(big_endian, ref table), base_address) in orders.clone() {
                let list = List {
                    kind,
                    old: section,
                    new: section,
                    offset: 0,
                    version,
                    address_size: 3,
                    dwarf64: false,
                    big_endian,
                    base_address,
                    table,
                    table_base: 0,
                };
                differ::answers(port, &list, met)?;
            }
        }
    }
    Ok(())
}

/// All calls of a seed's case in which an address size plays a part; now and
/// then those of a list of many ranges, too.
pub fn compare(port: &impl Added, case: &Case, seed: u64, met: &mut Met) -> Result<(), String> {
    if !matches!(case, Case::Offset(_) | Case::Leb128(_)) {
        differ::compare(port, case, seed, met)?;
    }
    if seed % 16 == 0 {
        built::list(port, &mut Random::new(!seed), &[3], met)
            .map_err(|error| format!("a built list: {error}"))?;
    }
    Ok(())
}

/// gimli's own walk of a list, up to where it refuses the size.
pub fn up_to_an_address(port: &impl Port, case: &ListCase, met: &mut Met) -> Result<(), String> {
    let list = &list_of(case);
    let answers = gimli::walk_counted(list).into_iter();
    let answers = answers.take_while(|(answer, _)| *answer != Answer::Refused(THREE));
    let next = |state| port.next(list, state);
    follow("next", answers, port.open(list), next, met)?;
    let answers = gimli::walk_raw_counted(list).into_iter();
    let answers = answers.take_while(|(answer, _)| *answer != Answer::Refused(THREE));
    let next = |state| port.next_raw(list, state);
    follow("next_raw", noted_answers(list, answers), port.open(list), next, met)
}

/// Walks a list of size 3, and has gimli walk the same list of size 4, where
/// nothing in it reaches the bound of size 3: all but the places is the same.
pub fn widened(
    port: &impl Added,
    cases: &Option<[ListCase; 2]>,
    seed: u64,
    met: &mut Met,
) -> Result<(), String> {
    let lists = cases.as_ref().map(|cases| cases.each_ref().map(list_of));
    let Some([three, four]) = lists.as_ref().filter(|lists| stays_below(lists)) else {
        met.met("not widened".into());
        return Ok(());
    };
    met.met(format!("widened {}", kind_and_version(three)));
    let answers = gimli::walk_counted(four);
    let told = answers.iter().map(|&(answer, entries)| (yielded(four, answer), entries));
    let next = |state| {
        let (got, after) = port.next(three, state);
        (yielded(three, got), after)
    };
    follow("next", told, port.open(three), next, met)?;
    let told = noted_answers(four, gimli::walk_raw_counted(four));
    let told = told.map(|(answer, entries)| (raw(four, answer), entries));
    let next = |state| {
        let (got, after) = port.next_raw(three, state);
        (raw(three, got), after)
    };
    follow("next_raw", told, port.open(three), next, met)?;
    let r = &mut Random::new(seed.rotate_left(32));
    for _ in 0..2 {
        let address = address_near(r, &answers);
        let due = yielded(four, gimli::lookup(four, address));
        met.same("lookup", &due, &yielded(three, port.lookup(three, address)))?;
    }
    added::covering(port, three, added::coverage(four), &mut Random::new(seed), false, met)
}

fn expression<'a>(list: &List<'a>, place: Option<Place>) -> Option<&'a [u8]> {
    let place = place?;
    list.section().get(place.offset as usize..)?.get(..place.length as usize)
}

/// An answer with the bytes of its expression in place of their place.
fn yielded<'a>(list: &List<'a>, answer: Answer<Yielded>) -> Answer<(u64, u64, Option<&'a [u8]>)> {
    answer.map(|entry| (entry.begin, entry.end, expression(list, entry.expression)))
}

/// A raw entry's form, its numbers, its expression, and whether it is padded.
type Written<'a> = (Form, u64, u64, Option<&'a [u8]>, bool);

fn raw<'a>(list: &List<'a>, answer: Answer<Noted>) -> Answer<Written<'a>> {
    answer.map(|Noted { entry, padded }| {
        (entry.form, entry.first, entry.second, expression(list, entry.expression), padded)
    })
}

/// Whether the two tables have the same rows, and every entry that gimli reads
/// in the list of size 4 stays below the bound of size 3.
fn stays_below([three, four]: &[List; 2]) -> bool {
    if rows(three) != rows(four) {
        return false;
    }
    let Ok(mut walk) = Walk::open(four) else { return true };
    loop {
        match walk.next_raw() {
            Answer::Entry(entry) if below(four, walk.state().base_address, entry) => {
                walk.convert_raw(entry);
            }
            Answer::Entry(_) => return false,
            Answer::End => return true,
            Answer::Refused(_) => {}
        }
    }
}

/// The whole rows of a list's table.
fn rows(list: &List) -> Option<Vec<u64>> {
    let rows = list.table.get(list.table_base as usize..)?;
    let digits = |number: u64, byte: &u8| number << 8 | u64::from(*byte);
    let number = |row: &[u8]| {
        if list.big_endian { row.iter().fold(0, digits) } else { row.iter().rfold(0, digits) }
    };
    Some(rows.chunks_exact(list.address_size.into()).map(number).collect())
}

/// Whether addresses, base addresses and sums of an entry stay below the bound of
/// size 3, and the products of its indexes below 2^64.
fn below(list: &List, base: u64, entry: Raw) -> bool {
    let row = |index: u64| {
        if index >= 1 << 62 {
            return u64::MAX;
        }
        gimli::get_address(list.table, list.big_endian, 4, list.table_base, index).unwrap_or(0)
    };
    let (first, second) = (entry.first, entry.second);
    let (begin, end) = match entry.form {
        Form::Base => (first, first),
        Form::BaseIndex => (row(first), row(first)),
        Form::BarePair | Form::OffsetPair => {
            (base.saturating_add(first), base.saturating_add(second))
        }
        Form::StartEndIndex => (row(first), row(second)),
        Form::StartLengthIndex => (row(first), row(first).saturating_add(second)),
        Form::Default => (0, 0),
        Form::StartEnd => (first, second),
        Form::StartLength => (first, first.saturating_add(second)),
    };
    begin.max(end) < 0xfffffe
}
