//! Compares the calls that gimli has no match for: coverage, the same as runs
//! in lent slices, sheets, canonical lists. Beside them stands a plain version, written for the purpose: gimli's
//! walk, or the model's at size 3, gathered in a vector, sorted and merged, and
//! the scope's bytes.

use generator::{READ, Random};
use oracle::oracle_api::*;

use crate::differ::{Found, Met, Noted, Port, Stack};
use crate::measure::Walk;

/// How many ranges a coverage holds, and the walk that makes one may yield.
pub const MOST: usize = crate::port::LIMIT;
/// The same before it was raised: sheets of so many ranges are stored.
pub const BEFORE: usize = 1024;

pub type Ranges = Vec<(u64, u64)>;

/// How many ranges were made, or how many bytes written.
pub type Wrote = Result<u64, Refusal>;

/// A coverage's two arrays.
#[derive(Clone)]
pub struct Kept {
    pub begins: [u64; MOST],
    pub ends: [u64; MOST],
}

/// A walk in words: place, base address, entries, and the word that says whether
/// its list is split.
pub type Words = [u64; 4];

/// Of each mark the word that says whether it is set, and the walk's words.
pub type Marks = [[u64; 5]; 8];

/// The calls compared. A call that makes a coverage writes it to `kept`, or its
/// ranges to the front of two slices. Those of marks are compared in `marks`; walk
/// and marks are whatever a call leaves there.
pub trait Added: Port {
    fn coverage(&self, list: &List, kept: &mut Kept) -> Wrote;
    fn runs(&self, list: &List, begins: &mut [u64], ends: &mut [u64]) -> Wrote;
    fn coverage_from_canonical(&self, bytes: &[u8], kept: &mut Kept) -> Wrote;
    fn coverage_from_sheet(&self, sheet: &[u8], kept: &mut Kept) -> Wrote;
    fn sheet(&self, n: u64, kept: &Kept, output: &mut [u8]) -> Wrote;
    fn canonical(&self, n: u64, kept: &Kept, output: &mut [u8]) -> Wrote;
    fn canonical_of(&self, list: &List, output: &mut [u8]) -> Wrote;
    fn set_mark(&self, number: u64, walk: &mut Words, marks: &mut Marks) -> Result<(), Refusal>;
    fn return_to(&self, number: u64, walk: &mut Words, marks: &mut Marks) -> Result<(), Refusal>;
}

/// The calls on range lists that take a table of kind numbers, and loading one. They
/// are compared in `kinds`.
pub trait Tabled: Added {
    fn load_kinds(&self, table: &[u8]) -> Result<(), Refusal>;
    fn next_by(&self, list: &List, kinds: &[u8], walk: State) -> (Answer<Yielded>, State);
    fn next_in_profile_by(
        &self,
        list: &List,
        kinds: &[u8],
        walk: State,
    ) -> (Answer<Yielded>, State);
    fn next_raw_by(&self, list: &List, kinds: &[u8], walk: State) -> (Answer<Noted>, State);
    fn lookup_by(&self, list: &List, kinds: &[u8], address: u64) -> Found;
    fn lookups_by(
        &self,
        list: &List,
        kinds: &[u8],
        addresses: &[u64],
        found: &mut Stack,
    ) -> Result<u64, Refusal>;
    fn coverage_by(&self, list: &List, kinds: &[u8], kept: &mut Kept) -> Wrote;
    fn runs_by(&self, list: &List, kinds: &[u8], begins: &mut [u64], ends: &mut [u64]) -> Wrote;
    fn canonical_by(&self, list: &List, kinds: &[u8], output: &mut [u8]) -> Wrote;
}

pub fn no<T>(number: u8) -> Result<T, Refusal> {
    Err(Refusal { number, value: 0 })
}

/// Every range of the walk, sorted and merged. Opening's refusals come first, 6
/// before 1; then the first of the walk's and 10.
pub fn coverage(list: &List) -> Result<Ranges, Refusal> {
    if !READ.contains(&list.address_size) {
        return Err(Refusal { number: 6, value: u64::from(list.address_size) });
    }
    let mut walk = Walk::open(list)?;
    let mut ranges = Ranges::new();
    loop {
        match walk.next() {
            Answer::Entry(_) if ranges.len() == MOST => return no(10),
            Answer::Entry(entry) => ranges.push((entry.begin, entry.end)),
            Answer::End => return Ok(merged(ranges)),
            Answer::Refused(refusal) => return Err(refusal),
        }
    }
}

/// Overlapping and touching ranges become one.
pub fn merged(mut ranges: Ranges) -> Ranges {
    ranges.sort();
    let mut runs = Ranges::new();
    for (begin, end) in ranges {
        match runs.last_mut() {
            Some(run) if begin <= run.1 => run.1 = run.1.max(end),
            _ => runs.push((begin, end)),
        }
    }
    runs
}

/// A canonical list as the list that it is.
pub fn canonical_list(bytes: &[u8]) -> List<'_> {
    List {
        kind: Kind::Ranges,
        old: &[],
        new: bytes,
        offset: 0,
        version: 5,
        address_size: 8,
        dwarf64: false,
        big_endian: false,
        base_address: 0,
        table: &[],
        table_base: 0,
    }
}

fn lawful(ranges: &[(u64, u64)]) -> bool {
    ranges.len() <= MOST
        && ranges.iter().all(|&(begin, end)| begin < end && begin < u64::MAX - 1)
        && ranges.windows(2).all(|pair| pair[1].0 > pair[0].1)
}

/// The ranges of a coverage that is handed in, or 12.
pub fn handed(n: u64, kept: &Kept) -> Result<Ranges, Refusal> {
    if n > MOST as u64 {
        return no(12);
    }
    let pairs = kept.begins.iter().copied().zip(kept.ends.iter().copied());
    let ranges: Ranges = pairs.take(n as usize).collect();
    if lawful(&ranges) { Ok(ranges) } else { no(12) }
}

pub fn sheet(ranges: &Ranges) -> Vec<u8> {
    let mut bytes = (ranges.len() as u16).to_le_bytes().to_vec();
    bytes.extend(8u16.to_le_bytes());
    ranges.iter().for_each(|(begin, _)| bytes.extend(begin.to_le_bytes()));
    ranges.iter().for_each(|(_, end)| bytes.extend(end.to_le_bytes()));
    bytes
}

/// The ranges of a sheet, or 12.
pub fn sheet_ranges(bytes: &[u8]) -> Result<Ranges, Refusal> {
    let &[a, b, 8, 0, ref rest @ ..] = bytes else { return no(12) };
    let count = usize::from(u16::from_le_bytes([a, b]));
    if rest.len() != 16 * count {
        return no(12);
    }
    let word = |bytes: &[u8]| u64::from_le_bytes(bytes.try_into().expect("eight bytes"));
    let words: Vec<u64> = rest.chunks(8).map(word).collect();
    let (begins, ends) = words.split_at(count);
    let ranges: Ranges = begins.iter().copied().zip(ends.iter().copied()).collect();
    if lawful(&ranges) { Ok(ranges) } else { no(12) }
}

pub fn canonical(ranges: &Ranges) -> Vec<u8> {
    let mut bytes = Vec::new();
    for (begin, end) in ranges {
        bytes.push(7);
        bytes.extend(begin.to_le_bytes());
        let mut length = end - begin;
        while length >= 0x80 {
            bytes.push(length as u8 | 0x80);
            length >>= 7;
        }
        bytes.push(length as u8);
    }
    bytes.push(0);
    bytes
}

/// A coverage as it is given back: 0 past the count.
pub fn kept(ranges: &Ranges) -> Kept {
    let mut kept = Kept { begins: [0; MOST], ends: [0; MOST] };
    for (at, &(begin, end)) in ranges.iter().enumerate() {
        (kept.begins[at], kept.ends[at]) = (begin, end);
    }
    kept
}

/// Arrays full of what no call may read: a number, or lawful ranges.
fn garbage(r: &mut Random) -> Kept {
    let fill = r.pick(&[0x5555_5555_5555_5555, u64::MAX, 0, 1]);
    let mut kept = Kept { begins: [fill; MOST], ends: [fill ^ 0xaa; MOST] };
    for _ in 0..8 {
        let at = r.below(MOST as u64) as usize;
        (kept.begins[at], kept.ends[at]) = (r.next(), r.next());
    }
    kept
}

fn count(met: &mut Met, call: &str, wrote: &Wrote) {
    match wrote {
        Ok(_) => met.met(format!("{call} answered")),
        Err(refusal) => met.met(format!("{call} refused {}", refusal.number)),
    }
}

/// Numbers of ranges around the limit, and around the one before.
fn count_near(met: &mut Met, call: &str, wrote: &Wrote) {
    if let Ok(n) = *wrote
        && [BEFORE, MOST].iter().any(|&most| n.abs_diff(most as u64) <= 2)
    {
        met.met(format!("{call} of {n} runs"));
    }
}

fn first_other<T: PartialEq>(one: &[T], other: &[T]) -> Option<usize> {
    one.iter().zip(other).position(|(one, other)| one != other)
}

/// A call that makes a coverage: its answer, and both arrays whole.
fn made(
    met: &mut Met,
    call: &str,
    plain: &Result<Ranges, Refusal>,
    r: &mut Random,
    port: impl FnOnce(&mut Kept) -> Wrote,
) -> Result<(), String> {
    let mut got = garbage(r);
    let (wrote, after) = match plain {
        Ok(ranges) => (Ok(ranges.len() as u64), kept(ranges)),
        Err(refusal) => (Err(*refusal), got.clone()),
    };
    count(met, call, &wrote);
    count_near(met, call, &wrote);
    met.same(call, &wrote, &port(&mut got))?;
    for (name, plain, got) in
        [("begins", &after.begins, &got.begins), ("ends", &after.ends, &got.ends)]
    {
        if let Some(at) = first_other(plain, got) {
            return Err(format!("{call}: {name}[{at}]: {:x}, port {:x}", plain[at], got[at]));
        }
    }
    Ok(())
}

/// Numbers that differ from place to place, and stand where nothing may be
/// written.
fn places(r: &mut Random, length: usize) -> Vec<u64> {
    let fill = r.next();
    (0..length as u64).map(|at| fill.wrapping_add(at)).collect()
}

/// The call that puts the ranges of a coverage at the front of slices of two
/// lengths: its answer, both slices whole, and what lies behind them.
fn put(
    met: &mut Met,
    call: &str,
    plain: &Result<Ranges, Refusal>,
    (b, e): (usize, usize),
    r: &mut Random,
    port: impl FnOnce(&mut [u64], &mut [u64]) -> Wrote,
) -> Result<(), String> {
    const BEHIND: usize = 3;
    let (mut begins, mut ends) = (places(r, b + BEHIND), places(r, e + BEHIND));
    let mut after = (begins.clone(), ends.clone());
    let wrote = match plain {
        Ok(ranges) if ranges.len() > b || ranges.len() > e => no(11),
        Ok(ranges) => {
            for (at, &(begin, end)) in ranges.iter().enumerate() {
                (after.0[at], after.1[at]) = (begin, end);
            }
            Ok(ranges.len() as u64)
        }
        Err(refusal) => Err(*refusal),
    };
    count(met, call, &wrote);
    count_near(met, call, &wrote);
    let into = format!("{call} into {b} and {e} places");
    met.same(&into, &wrote, &port(&mut begins[..b], &mut ends[..e]))?;
    for (name, plain, got) in [("begins", &after.0, &begins), ("ends", &after.1, &ends)] {
        if let Some(at) = first_other(plain, got) {
            return Err(format!("{into}: {name}[{at}]: {:x}, port {:x}", plain[at], got[at]));
        }
    }
    Ok(())
}

/// Lengths of two slices around the number of ranges; all of them where it is
/// small.
fn two_lengths(r: &mut Random, plain: &Result<Ranges, Refusal>, all: bool) -> Vec<(usize, usize)> {
    let n = match plain {
        Ok(ranges) => ranges.len(),
        Err(_) => return vec![(0, 0), (r.below(64) as usize, r.below(64) as usize)],
    };
    if all && n <= 3 {
        let other = |b| (0..n + 3).map(move |e| (b, e));
        return (0..n + 3).flat_map(other).collect();
    }
    let less = n.saturating_sub(1);
    let mut any = || r.below(n as u64 + 40) as usize;
    let (one, other) = (any(), any());
    if all {
        let around = [(n, n), (n + 1, n + 1), (less, n), (n, less), (0, n), (n, 0)];
        return [&around[..], &[(one, other), (one, n + 1), (n + 1, other)]].concat();
    }
    let enough = r.pick(&[(n, n), (n + 1, n), (n, n + 2), (n.max(one), n.max(other))]);
    vec![r.pick(&[(less, n), (n, less), (one, other), (0, 0)]), enough]
}

/// A call that writes bytes to an output of a length: its answer, the output
/// whole, and what lies behind it.
fn wrote(
    met: &mut Met,
    call: &str,
    plain: &Result<Vec<u8>, Refusal>,
    length: usize,
    r: &mut Random,
    port: impl FnOnce(&mut [u8]) -> Wrote,
) -> Result<(), String> {
    let fill = r.next() as u8;
    let mut got: Vec<u8> = (0..length + 24).map(|at| fill.wrapping_add(at as u8)).collect();
    let mut after = got.clone();
    let wrote = match plain {
        Ok(bytes) if bytes.len() > length => no(11),
        Ok(bytes) => {
            after[..bytes.len()].copy_from_slice(bytes);
            Ok(bytes.len() as u64)
        }
        Err(refusal) => Err(*refusal),
    };
    count(met, call, &wrote);
    met.same(&format!("{call} into {length}"), &wrote, &port(&mut got[..length]))?;
    match first_other(&after, &got) {
        Some(at) => Err(format!("{call} into {length}: byte {at} of the output")),
        None => Ok(()),
    }
}

/// Lengths around the one that is needed; all of them where it is small.
fn lengths(r: &mut Random, plain: &Result<Vec<u8>, Refusal>, all: bool) -> Vec<usize> {
    let Ok(bytes) = plain else { return vec![0, r.below(64) as usize] };
    let needed = bytes.len();
    if all && needed <= 64 {
        return (0..needed + 4).collect();
    }
    let below = r.below(needed as u64) as usize;
    let above = needed + r.below(40) as usize;
    if all {
        return vec![0, 1, below, needed - 1, needed, needed + 1, above];
    }
    vec![r.pick(&[0, below, needed - 1]), r.pick(&[needed, needed, needed + 1, above])]
}

/// All calls about a list. `all` for every length around the needed one.
pub fn list(
    port: &impl Added,
    list: &List,
    r: &mut Random,
    all: bool,
    met: &mut Met,
) -> Result<(), String> {
    covering(port, list, coverage(list), r, all, met)
}

/// The same of a list whose coverage is known.
pub fn covering(
    port: &impl Added,
    list: &List,
    plain: Result<Ranges, Refusal>,
    r: &mut Random,
    all: bool,
    met: &mut Met,
) -> Result<(), String> {
    made(met, "coverage", &plain, r, |kept| port.coverage(list, kept))?;
    for lengths in two_lengths(r, &plain, all) {
        put(met, "runs", &plain, lengths, r, |begins, ends| port.runs(list, begins, ends))?;
    }
    let bytes = plain.as_ref().map(canonical).map_err(|refusal| *refusal);
    for length in lengths(r, &bytes, all) {
        let call = "canonical of a list";
        wrote(met, call, &bytes, length, r, |output| port.canonical_of(list, output))?;
    }
    match plain {
        Ok(ranges) if all || r.one_in(1, 4) => {
            let mut kept = garbage(r);
            for (at, &(begin, end)) in ranges.iter().enumerate() {
                (kept.begins[at], kept.ends[at]) = (begin, end);
            }
            handed_in(port, ranges.len() as u64, &kept, r, all, met)
        }
        _ => Ok(()),
    }
}

/// All calls about a coverage that is handed in, and the ways back from what
/// they write.
pub fn handed_in(
    port: &impl Added,
    n: u64,
    kept: &Kept,
    r: &mut Random,
    all: bool,
    met: &mut Met,
) -> Result<(), String> {
    let ranges = handed(n, kept);
    let bytes = ranges.as_ref().map(sheet).map_err(|refusal| *refusal);
    for length in lengths(r, &bytes, all) {
        wrote(met, "sheet", &bytes, length, r, |output| port.sheet(n, kept, output))?;
    }
    if let Ok(bytes) = &bytes {
        from_sheet(port, bytes, r, met)?;
    }
    let bytes = ranges.as_ref().map(canonical).map_err(|refusal| *refusal);
    for length in lengths(r, &bytes, all) {
        wrote(met, "canonical", &bytes, length, r, |output| port.canonical(n, kept, output))?;
    }
    match bytes {
        Ok(bytes) => {
            // The plain way back must hold too.
            assert_eq!(coverage(&canonical_list(&bytes)), ranges);
            from_canonical(port, &bytes, r, met)
        }
        Err(_) => Ok(()),
    }
}

pub fn from_sheet(
    port: &impl Added,
    bytes: &[u8],
    r: &mut Random,
    met: &mut Met,
) -> Result<(), String> {
    let plain = sheet_ranges(bytes);
    made(met, "coverage from a sheet", &plain, r, |kept| port.coverage_from_sheet(bytes, kept))
}

pub fn from_canonical(
    port: &impl Added,
    bytes: &[u8],
    r: &mut Random,
    met: &mut Met,
) -> Result<(), String> {
    let plain = coverage(&canonical_list(bytes));
    let call = "coverage from a canonical list";
    made(met, call, &plain, r, |kept| port.coverage_from_canonical(bytes, kept))
}

/// A list with an address size that isn't read.
pub fn other_size(
    port: &impl Added,
    list: &List,
    r: &mut Random,
    met: &mut Met,
) -> Result<(), String> {
    let refused = coverage(list);
    let bytes = refused.as_ref().map(canonical).map_err(|refusal| *refusal);
    made(met, "coverage, other size", &refused, r, |kept| port.coverage(list, kept))?;
    let call = "runs, other size";
    put(met, call, &refused, (2, 1), r, |begins, ends| port.runs(list, begins, ends))?;
    let call = "canonical of a list, other size";
    wrote(met, call, &bytes, 32, r, |output| port.canonical_of(list, output))
}
