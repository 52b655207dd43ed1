//! Compares a reader with the oracle, call by call. The reader is anything
//! that answers the calls of `Port`; cases come from the generator. Left out
//! are the scope's listed differences: walks with other address sizes, and
//! list offsets whose sum passes 2^64. They are counted, and the reader is
//! held to the page there. Where gimli refuses size 3 the reader is held to the
//! model, and the calls are counted apart, too. How many entries a walk has
//! read is held to gimli's raw walk, and a count that is handed in to the rule
//! that it rises by as many, up to 2^64 - 1. How long a number is, and whether it
//! is padded, is the model's to say.

use std::collections::BTreeMap;
use std::fmt::Debug;

use generator::{Case, ConvertCase, ListCase, READ, Random, RawCase};
use oracle::oracle_api::{self as gimli, *};

use crate::added::{self, Added};
use crate::measure::{self, Tables, Walk, gimli_reads};
use crate::model::Model;

/// The entry that a lookup gives, the end for "not there", or a refusal.
pub type Found = Answer<Yielded>;

/// A LEB128 number: its value, the place after it, how many bytes it took, and
/// whether a shorter form of it exists.
#[derive(Debug, Clone, Copy, PartialEq, Eq)]
pub struct Number {
    pub value: u64,
    pub next: u64,
    pub length: u64,
    pub padded: bool,
}

/// A raw entry, and whether some LEB128 number of it is padded.
#[derive(Debug, Clone, Copy, PartialEq, Eq)]
pub struct Noted {
    pub entry: Raw,
    pub padded: bool,
}

/// How many addresses are looked up at most in one reading of a list.
pub const MOST_ADDRESSES: usize = 64;

/// An answer to one of them in words: the result and the refusal's number, its value,
/// begin, end, and the expression's offset and length, 0 where there is none.
pub type Told = [u64; 6];
pub type Stack = [Told; MOST_ADDRESSES];

pub fn in_words(found: Found) -> Told {
    match found {
        Answer::Entry(Yielded { begin, end, expression }) => {
            let Place { offset, length } = expression.unwrap_or(Place { offset: 0, length: 0 });
            [0, 0, begin, end, offset, length]
        }
        Answer::End => [3, 0, 0, 0, 0, 0],
        Answer::Refused(refusal) => [refused_with(refusal.number), refusal.value, 0, 0, 0, 0],
    }
}

/// The word of an answer that is refused.
pub fn refused_with(number: u8) -> u64 {
    4 + (u64::from(number) << 32)
}

/// The calls compared. Walks go in by value and come back.
pub trait Port: Sync {
    fn open(&self, list: &List) -> Result<State, Refusal>;
    fn next(&self, list: &List, walk: State) -> (Answer<Yielded>, State);
    fn next_in_profile(&self, list: &List, walk: State) -> (Answer<Yielded>, State);
    fn next_raw(&self, list: &List, walk: State) -> (Answer<Noted>, State);
    fn convert_raw(&self, list: &List, walk: State, entry: Raw) -> (Converted, State);
    fn lookup(&self, list: &List, address: u64) -> Found;
    /// How many raw entries were read; `found` is whatever the call leaves there.
    fn lookups(&self, list: &List, addresses: &[u64], found: &mut Stack) -> Result<u64, Refusal>;

    fn get_address(
        &self,
        table: &[u8],
        big_endian: bool,
        size: u8,
        base: u64,
        index: u64,
    ) -> Result<u64, Refusal>;
    /// The table at a place, and the place of the next.
    fn next_table(&self, section: &[u8], big_endian: bool, place: u64) -> (Answer<Table>, u64);
    /// The first entry of a place, and the place of the rest.
    fn next_entry(
        &self,
        section: &[u8],
        big_endian: bool,
        size: u8,
        rest: Place,
    ) -> (Answer<u64>, Place);
    fn lists_header(&self, section: &[u8], big_endian: bool) -> Result<Lists, Refusal>;
    fn get_offset(
        &self,
        kind: Kind,
        section: &[u8],
        big_endian: bool,
        dwarf64: bool,
        base: u64,
        index: u64,
    ) -> Result<u64, Refusal>;
    fn default_base(&self, kind: Kind, version: u16, dwarf64: bool, split_file: bool) -> u64;

    fn uleb128(&self, bytes: &[u8], at: u64) -> Result<Number, Refusal>;
    fn read_number(&self, bytes: &[u8], big_endian: bool, width: u8)
    -> Result<(u64, u64), Refusal>;
    fn read_address(&self, bytes: &[u8], big_endian: bool, size: u8)
    -> Result<(u64, u64), Refusal>;
    fn read_offset(
        &self,
        bytes: &[u8],
        big_endian: bool,
        dwarf64: bool,
    ) -> Result<(u64, u64), Refusal>;
    fn initial_length(&self, bytes: &[u8], big_endian: bool) -> Result<(u64, bool, u64), Refusal>;
    fn read_address_size(&self, bytes: &[u8]) -> Result<(u8, u64), Refusal>;
    fn skip(&self, bytes: &[u8], count: u64) -> Result<Place, Refusal>;
    fn split(&self, bytes: &[u8], count: u64) -> Result<(Place, Place), Refusal>;
    fn truncate(&self, bytes: &[u8], length: u64) -> Result<Place, Refusal>;
    fn wrapping_add_sized(&self, address: u64, length: u64, size: u8) -> u64;
    fn min_tombstone(&self, size: u8) -> u64;
}

/// How often each thing was met, by name, how many calls were compared, how
/// many at size 3 with the model, and how many were left out.
#[derive(Default)]
pub struct Met {
    pub calls: u64,
    pub with_model: u64,
    pub left_out: u64,
    pub names: BTreeMap<String, u64>,
}

impl Met {
    pub fn join(&mut self, other: Met) {
        self.calls += other.calls;
        self.with_model += other.with_model;
        self.left_out += other.left_out;
        for (name, count) in other.names {
            *self.names.entry(name).or_default() += count;
        }
    }

    pub fn met(&mut self, name: String) {
        *self.names.entry(name).or_default() += 1;
    }

    /// One compared call: an error that names it when the answers differ.
    pub fn same<T: PartialEq + Debug>(
        &mut self,
        call: &str,
        oracle: &T,
        port: &T,
    ) -> Result<(), String> {
        self.calls += 1;
        if oracle == port {
            return Ok(());
        }
        Err(format!("{call}: oracle {oracle:x?}, port {port:x?}"))
    }

    /// Counts apart what `compare` compares, where the model is the measure.
    pub fn measured(
        &mut self,
        by_model: bool,
        compare: impl FnOnce(&mut Met) -> Result<(), String>,
    ) -> Result<(), String> {
        let before = self.calls;
        let compared = compare(self);
        if by_model {
            self.with_model += self.calls - before;
            self.calls = before;
        }
        compared
    }

    /// The same for calls about a list, by its address size.
    pub fn measured_at(
        &mut self,
        size: u8,
        compare: impl FnOnce(&mut Met) -> Result<(), String>,
    ) -> Result<(), String> {
        self.measured(!gimli_reads(size), compare)
    }

    /// A call that gimli refuses where it meets size 3: the model's answer then.
    fn sized<T: Copy + PartialEq + Debug>(
        &mut self,
        name: &str,
        oracle: Result<T, Refusal>,
        port: &impl Port,
        call: impl Fn(&dyn Port) -> Result<T, Refusal>,
    ) -> Result<(), String> {
        let by_model = oracle == Err(THREE);
        let (measure, name) = if by_model {
            (call(&Model), format!("{name}, size 3"))
        } else {
            (oracle, name.into())
        };
        count(self, &name, measure.err());
        self.measured(by_model, |met| met.same(&name, &measure, &call(port)))
    }

    /// Counts as left out what `compare` compares, with the model that has the
    /// page's rules.
    pub fn leaving_out(
        &mut self,
        compare: impl FnOnce(&mut Met) -> Result<(), String>,
    ) -> Result<(), String> {
        let before = self.calls;
        let compared = compare(self);
        self.left_out += self.calls - before;
        self.calls = before;
        compared
    }

    /// A call that is left out: not gimli's answer but the page's.
    fn by_the_page<T: PartialEq + Debug>(
        &mut self,
        call: &str,
        page: &T,
        port: &T,
    ) -> Result<(), String> {
        self.left_out += 1;
        self.met(format!("left out: {call}"));
        if page == port {
            return Ok(());
        }
        Err(format!("{call}: the scope {page:x?}, port {port:x?}"))
    }
}

pub fn kind_of(kind: generator::Kind) -> Kind {
    match kind {
        generator::Kind::Ranges => Kind::Ranges,
        generator::Kind::Locations => Kind::Locations,
        generator::Kind::SplitLocations => Kind::SplitLocations,
    }
}

pub fn list_of(case: &ListCase) -> List<'_> {
    List {
        kind: kind_of(case.kind),
        old: &case.old,
        new: &case.new,
        offset: case.offset,
        version: case.version,
        address_size: case.address_size,
        dwarf64: case.dwarf64,
        big_endian: case.big_endian,
        base_address: case.base_address,
        table: &case.table,
        table_base: case.table_base,
    }
}

/// Compares all calls of a case. `seed` chooses the order of calls on a walk.
pub fn compare(port: &impl Added, case: &Case, seed: u64, met: &mut Met) -> Result<(), String> {
    match case {
        Case::List(case) => {
            let list = list_of(case);
            let walk = walk_by_hand(&mut Random::new(!(seed ^ COUNT)), &list);
            by_hand(port, &list, walk, met)?;
            from_its_offset(port, &list, seed, met)
        }
        Case::Convert(case) => {
            met.measured_at(case.list.address_size, |met| convert(port, case, seed, met))
        }
        Case::Address(c) => {
            let (t, big, size) = (&c.table, c.big_endian, c.address_size);
            let oracle = gimli::get_address(t, big, size, c.base, c.index);
            met.sized("get_address", oracle, port, |port| {
                port.get_address(t, big, size, c.base, c.index)
            })
        }
        Case::Tables(case) => tables(port, &case.section, case.big_endian, met),
        Case::Lists(case) => {
            let (s, big) = (&case.section, case.big_endian);
            let oracle = gimli::lists_header(s, big);
            met.sized("lists header", oracle, port, |port| port.lists_header(s, big))
        }
        Case::Offset(c) => {
            let kind = kind_of(c.kind);
            let got = port.get_offset(kind, &c.section, c.big_endian, c.dwarf64, c.base, c.index);
            let oracle =
                match gimli::get_offset(kind, &c.section, c.big_endian, c.dwarf64, c.base, c.index)
                {
                    OffsetAnswer::Offset(offset) => Ok(offset),
                    OffsetAnswer::Refused(refusal) => Err(refusal),
                    OffsetAnswer::SumTooLarge => {
                        let page = Err(Refusal { number: 9, value: 0 });
                        return met.by_the_page("get_offset, sum from 2^64 on", &page, &got);
                    }
                };
            count(met, "get_offset", oracle.err());
            met.same("get_offset", &oracle, &got)
        }
        Case::Leb128(bytes) => number(port, bytes, 0, met),
        Case::Bytes(c) => {
            let (b, big, n) = (&c.bytes, c.big_endian, c.count);
            if c.width != 3 {
                let number = gimli::read_number(b, big, c.width);
                met.same("read_number", &number, &port.read_number(b, big, c.width))?;
            }
            for size in [c.width, n as u8] {
                let oracle = gimli::read_address(b, big, size);
                met.sized("read_address", oracle, port, |port| port.read_address(b, big, size))?;
            }
            let initial = gimli::initial_length(b, big);
            count(met, "initial length", initial.err());
            met.same("initial_length", &initial, &port.initial_length(b, big))?;
            for dwarf64 in [false, true] {
                let oracle = gimli::read_offset(b, big, dwarf64);
                met.same("read_offset", &oracle, &port.read_offset(b, big, dwarf64))?;
            }
            let size = gimli::read_address_size(b);
            met.sized("read_address_size", size, port, |port| port.read_address_size(b))?;
            met.same("skip", &gimli::skip(b, n), &port.skip(b, n))?;
            met.same("split", &gimli::split(b, n), &port.split(b, n))?;
            met.same("truncate", &gimli::truncate(b, n), &port.truncate(b, n))
        }
        Case::Sum(c) => {
            let (a, b, size) = (c.first, c.second, c.address_size);
            let oracle = gimli::wrapping_add_sized(a, b, size);
            met.same("wrapping_add_sized", &oracle, &port.wrapping_add_sized(a, b, size))?;
            met.same("min_tombstone", &gimli::min_tombstone(size), &port.min_tombstone(size))
        }
    }
}

/// All calls that start at a list's offset.
pub fn from_its_offset(
    port: &impl Added,
    list: &List,
    seed: u64,
    met: &mut Met,
) -> Result<(), String> {
    if Random::new(seed ^ OTHER_SIZE).one_in(1, 64) {
        other_size(port, list, seed, met)?;
    }
    met.measured_at(list.address_size, |met| {
        walk(port, list, seed, met)?;
        lookups(port, list, seed, met)?;
        added::list(port, list, &mut Random::new(seed.rotate_left(16)), false, met)
    })
}

/// The number at a place.
pub fn number(port: &impl Port, bytes: &[u8], at: u64, met: &mut Met) -> Result<(), String> {
    let oracle = measure::uleb128(bytes, at);
    met.met(match oracle {
        Ok(Number { length, padded: true, .. }) => format!("uleb128 of length {length:2}, padded"),
        Ok(Number { length, .. }) => format!("uleb128 of length {length:2}"),
        Err(refusal) => format!("uleb128 refused {}", refusal.number),
    });
    met.same("uleb128", &oracle, &port.uleb128(bytes, at))
        .map_err(|error| format!("{error}\n{bytes:x?} at {at}"))
}

fn count(met: &mut Met, call: &str, refusal: Option<Refusal>) {
    match refusal {
        Some(refusal) => met.met(format!("{call} refused {}", refusal.number)),
        None => met.met(format!("{call} answered")),
    }
}

fn count_answer<T>(met: &mut Met, call: &str, answer: &Answer<T>) {
    match answer {
        Answer::Entry(_) => met.met(format!("{call} entry")),
        Answer::End => met.met(format!("{call} end")),
        Answer::Refused(refusal) => met.met(format!("{call} refused {}", refusal.number)),
    }
}

pub fn kind_and_version(list: &List) -> String {
    format!("{:?} {}", list.kind, if list.version <= 4 { "to 4" } else { "from 5" })
}

/// A count of entries for a walk made by hand: mostly such that the walk comes to
/// 2^64 - 1, or near it.
fn count_by_hand(r: &mut Random) -> u64 {
    match r.below(4) {
        0 => r.next() >> r.below(64),
        1 => u64::MAX,
        _ => u64::MAX - r.below(8),
    }
}

/// Walks a list: `next`, or `next_raw` and `convert_raw`, or both by turns;
/// after the end three calls more. Half of the walks go on with another count
/// than their opening's.
pub fn walk(port: &impl Port, list: &List, seed: u64, met: &mut Met) -> Result<(), String> {
    let opened = Walk::open(list);
    let got = port.open(list);
    let (mut oracle, mut state) = match (opened, got) {
        (Ok(walk), Ok(state)) => (walk, state),
        (Err(refusal), got) => {
            met.met(format!("open refused {}", refusal.number));
            return met.same("open", &Err(refusal), &got);
        }
        (Ok(mut walk), got) => return met.same("open", &Ok(walk.state()), &got),
    };
    met.same("walk opened", &oracle.state(), &state)?;
    let r = &mut Random::new(seed ^ COUNT);
    if r.one_in(1, 2) {
        state.entries = count_by_hand(r);
        oracle.from = state.entries;
        met.met("walk with a count handed in".into());
    }
    let r = &mut Random::new(!seed);
    let style = r.below(3);
    let what = kind_and_version(list);
    let mut ends = 0;
    while ends < 4 {
        if style == 0 || style == 2 && r.one_in(1, 2) {
            let answer = oracle.next();
            let (got, after) = port.next(list, state);
            count_answer(met, &format!("{what} next"), &answer);
            met.same("next", &answer, &got)?;
            met.same("walk after next", &oracle.state(), &after)?;
            state = after;
            ends += u32::from(answer == Answer::End);
            continue;
        }
        let answer = oracle.next_raw();
        let (got, after) = port.next_raw(list, state);
        met.same("next_raw", &answer, &got)?;
        met.same("walk after next_raw", &oracle.state(), &after)?;
        state = after;
        match answer {
            Answer::Entry(Noted { entry, padded }) => {
                let how = if padded { ", padded" } else { "" };
                met.met(format!("{what} raw {:?}{how}", entry.form));
                if style == 1 || r.one_in(7, 8) {
                    state = convert_one(port, list, &mut oracle, state, entry, met)?;
                }
            }
            Answer::End => ends += 1,
            Answer::Refused(refusal) => met.met(format!("{what} raw refused {}", refusal.number)),
        }
    }
    Ok(())
}

/// A walk made by hand, at any place of the section or past its end.
pub fn walk_by_hand(r: &mut Random, list: &List) -> State {
    let length = list.section().len() as u64;
    let past = r.one_in(1, 16);
    let place =
        if past { length + 1 + (r.next() >> (1 + r.below(63))) } else { r.below(length + 1) };
    State { place, base_address: r.next() >> r.below(64), entries: count_by_hand(r) }
}

/// One call on a walk made by hand. Past the section's end there is no entry.
pub fn by_hand(port: &impl Port, list: &List, walk: State, met: &mut Met) -> Result<(), String> {
    met.measured_at(list.address_size, |met| {
        let next = port.next(list, walk);
        let next_raw = port.next_raw(list, walk);
        if walk.place > list.section().len() as u64 {
            met.met("walk by hand, past the end".into());
            met.same("next past the end", &(Answer::End, walk), &next)?;
            return met.same("next_raw past the end", &(Answer::End, walk), &next_raw);
        }
        met.met("walk by hand".into());
        let mut oracle = Walk::by_hand(list, walk);
        met.same("next by hand", &(oracle.next(), oracle.state()), &next)?;
        let mut oracle = Walk::by_hand(list, walk);
        met.same("next_raw by hand", &(oracle.next_raw(), oracle.state()), &next_raw)
    })
}

/// A seed's other numbers: whether its list is tried with another size too, and
/// the counts that its walks are handed in with.
const OTHER_SIZE: u64 = 0x6f74686572;
const COUNT: u64 = 0x636f756e74;

/// An address size that isn't read.
pub fn size_not_read(r: &mut Random) -> u8 {
    let mut size = r.next() as u8;
    while READ.contains(&size) {
        size = size.wrapping_add(3);
    }
    size
}

/// A list with an address size that isn't read: refused with 6 at opening,
/// and by any call on a walk made by hand.
fn other_size(port: &impl Added, list: &List, seed: u64, met: &mut Met) -> Result<(), String> {
    let r = &mut Random::new(seed ^ OTHER_SIZE ^ !0);
    let size = size_not_read(r);
    let list = &List { address_size: size, ..*list };
    let no = Refusal { number: 6, value: u64::from(size) };
    met.by_the_page("open, other size", &Err(no), &port.open(list))?;
    met.by_the_page("lookup, other size", &Answer::Refused(no), &port.lookup(list, r.next()))?;
    let length = list.section().len() as u64;
    let (base_address, entries) = (r.next(), count_by_hand(r));
    let walk = State { place: r.below(length + 2), base_address, entries };
    let emptied = State { place: length, ..walk };
    let next = port.next(list, walk);
    met.by_the_page("next, other size", &(Answer::Refused(no), emptied), &next)?;
    let raw = port.next_raw(list, walk);
    met.by_the_page("next_raw, other size", &(Answer::Refused(no), emptied), &raw)?;
    let entry = Raw { form: Form::Base, first: r.next(), second: 0, expression: None };
    let converted = port.convert_raw(list, walk, entry);
    met.by_the_page("convert_raw, other size", &(Converted::Refused(no), walk), &converted)?;
    added::other_size(port, list, r, met)
}

/// Looks addresses up.
fn lookups(port: &impl Port, list: &List, seed: u64, met: &mut Met) -> Result<(), String> {
    let r = &mut Random::new(seed.rotate_left(32));
    let answers = Walk::answers(list);
    for _ in 0..2 {
        let address = address_near(r, &answers);
        lookup(port, list, address, met)?;
    }
    Ok(())
}

/// An address at a border of something that a walk yields, or any.
pub fn address_near(r: &mut Random, answers: &[(Answer<Yielded>, u64)]) -> u64 {
    match answers[r.below(answers.len() as u64) as usize].0 {
        Answer::Entry(entry) => match r.below(4) {
            0 => entry.begin,
            1 => entry.end - 1,
            2 => entry.end,
            _ => entry.begin.wrapping_sub(1),
        },
        _ => r.next() >> r.below(64),
    }
}

/// Looks an address up.
pub fn lookup(port: &impl Port, list: &List, address: u64, met: &mut Met) -> Result<(), String> {
    let due = measure::lookup(list, address);
    count_answer(met, "lookup", &due);
    met.same("lookup", &due, &port.lookup(list, address))
        .map_err(|error| format!("{error}, of address {address:x}"))
}

/// Looks addresses up in one reading: how many entries were read, and all places, with
/// one more before them and one behind. The numbers before and behind the addresses
/// would descend.
pub fn stack(
    port: &impl Port,
    list: &List,
    addresses: &[u64],
    fill: u64,
    met: &mut Met,
) -> Result<(), String> {
    let word = |at: usize| fill.wrapping_add(at as u64);
    let mut got: [Told; MOST_ADDRESSES + 2] =
        std::array::from_fn(|row| std::array::from_fn(|at| word(6 * row + at)));
    let mut after = got;
    let due = measure::lookups(list, addresses).map(|(answers, entries)| {
        for (place, answer) in after[1..].iter_mut().zip(answers) {
            count_answer(met, "address", &answer);
            *place = in_words(answer);
        }
        entries
    });
    let lent = [&[u64::MAX], addresses, &[0]].concat();
    let found = got[1..=MOST_ADDRESSES].as_mut_array().expect("the places");
    let read = port.lookups(list, &lent[1..=addresses.len()], found);
    met.same("lookups", &due, &read)
        .and_then(|()| match (0..got.len()).find(|&at| after[at] != got[at]) {
            Some(at) => {
                let (due, got) = (after[at], got[at]);
                Err(format!("lookups: place {at}, from 1: oracle {due:x?}, port {got:x?}"))
            }
            None => Ok(()),
        })
        .map_err(|error| format!("{error}, of addresses {addresses:x?}"))
}

fn convert_one(
    port: &impl Port,
    list: &List,
    oracle: &mut Walk,
    state: State,
    entry: Raw,
    met: &mut Met,
) -> Result<State, String> {
    let answer = oracle.convert_raw(entry);
    let (got, after) = port.convert_raw(list, state, entry);
    match answer {
        Converted::Entry(_) => met.met(format!("convert {:?} entry", entry.form)),
        Converted::Nothing => met.met(format!("convert {:?} nothing", entry.form)),
        Converted::Refused(r) => met.met(format!("convert {:?} refused {}", entry.form, r.number)),
    }
    met.same("convert_raw", &answer, &got)?;
    met.same("walk after convert_raw", &oracle.state(), &after)?;
    Ok(after)
}

/// An entry made by hand.
pub fn entry_of(entry: &RawCase, list: &List) -> Raw {
    use Form::*;
    let forms = [
        BarePair,
        Base,
        BaseIndex,
        StartEndIndex,
        StartLengthIndex,
        OffsetPair,
        Default,
        StartEnd,
        StartLength,
    ];
    let form = forms[usize::from(entry.form)];
    let located = list.kind != Kind::Ranges && !matches!(form, Base | BaseIndex);
    let (offset, length) = entry.expression;
    let expression = located.then_some(Place { offset, length });
    Raw { form, first: entry.first, second: entry.second, expression }
}

/// Converts entries made by hand, on a walk with any count.
fn convert(port: &impl Port, case: &ConvertCase, seed: u64, met: &mut Met) -> Result<(), String> {
    let list = list_of(&case.list);
    let mut oracle = Walk::open(&list).map_err(|refusal| format!("open: {refusal:?}"))?;
    oracle.from = count_by_hand(&mut Random::new(seed ^ COUNT));
    let mut state = oracle.state();
    for entry in &case.entries {
        let entry = entry_of(entry, &list);
        state = convert_one(port, &list, &mut oracle, state, entry, met)?;
    }
    Ok(())
}

/// Reads all tables of a section and all their entries.
pub fn tables(
    port: &impl Port,
    section: &[u8],
    big_endian: bool,
    met: &mut Met,
) -> Result<(), String> {
    let oracle = Tables::open(section, big_endian);
    met.measured(oracle.by_model(), |met| table_walk(port, section, big_endian, oracle, met))
}

fn table_walk(
    port: &impl Port,
    section: &[u8],
    big_endian: bool,
    mut oracle: Tables,
    met: &mut Met,
) -> Result<(), String> {
    let mut place = 0;
    let mut ends = 0;
    while ends < 3 {
        let answer = oracle.next();
        let (got, after) = port.next_table(section, big_endian, place);
        count_answer(met, "table", &answer);
        place = after;
        met.same("table", &answer, &got)?;
        met.same("place after table", &oracle.place(), &place)?;
        let Answer::Entry(table) = answer else {
            ends += u32::from(answer == Answer::End);
            continue;
        };
        let mut rest = table.entries;
        let mut last = 0;
        while last < 3 {
            let answer = oracle.next_entry();
            let (got, after) = port.next_entry(section, big_endian, table.address_size, rest);
            count_answer(met, "table entry", &answer);
            rest = after;
            met.same("table entry", &answer, &got)?;
            met.same("left after entry", &oracle.left(), &rest.length)?;
            last += u32::from(answer == Answer::End);
        }
    }
    Ok(())
}

/// Walks one short list, answers and counts.
pub fn short(port: &impl Port, bytes: &[u8], met: &mut Met) -> Result<(), String> {
    short_lists(bytes).try_for_each(|list| answers(port, &list, met))
}

/// One short list at size 1 as every kind, version 4 and 5. Byte order matters
/// where lengths are two or four bytes. One base address is below the tombstone
/// bound and lets sums wrap, one is at it.
pub fn short_lists(bytes: &[u8]) -> impl Iterator<Item = List<'_>> {
    let lists = [
        (Kind::Ranges, 4, false),
        (Kind::Ranges, 5, false),
        (Kind::Locations, 4, false),
        (Kind::Locations, 4, true),
        (Kind::Locations, 5, false),
        (Kind::SplitLocations, 4, false),
        (Kind::SplitLocations, 4, true),
        (Kind::SplitLocations, 5, false),
    ];
    let all = lists.into_iter().flat_map(|list| [0xf8, 0xfe].map(|base| (list, base)));
    all.map(move |((kind, version, big_endian), base_address)| List {
        kind,
        old: bytes,
        new: bytes,
        offset: 0,
        version,
        address_size: 1,
        dwarf64: false,
        big_endian,
        base_address,
        table: &[0x10, 0x18, 0xfe],
        table_base: 0,
    })
}

/// `next` up to the end, answers and counts.
pub fn answers(port: &impl Port, list: &List, met: &mut Met) -> Result<(), String> {
    let next = |state| port.next(list, state);
    met.measured_at(list.address_size, |met| {
        follow("next", Walk::answers(list), port.open(list), next, met)
            .map_err(|error| format!("{error}\n{list:x?}"))
    })
}

/// A walk's calls one by one, held against answers and counts that are known.
pub fn follow<T: PartialEq + Debug>(
    call: &str,
    answers: impl IntoIterator<Item = (Answer<T>, u64)>,
    opened: Result<State, Refusal>,
    next: impl Fn(State) -> (Answer<T>, State),
    met: &mut Met,
) -> Result<(), String> {
    let mut answers = answers.into_iter();
    let mut state = match opened {
        Ok(state) => state,
        Err(refusal) => {
            return met.same("open", &answers.next(), &Some((Answer::Refused(refusal), 0)));
        }
    };
    if state.entries != 0 {
        return Err(format!("open: port {state:x?}, of which nothing is read"));
    }
    for answer in answers {
        let (got, after) = next(state);
        met.same(call, &answer, &(got, after.entries))?;
        state = after;
    }
    Ok(())
}
