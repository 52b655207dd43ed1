//! The scope's rules, read straight off the page: a second reader to try the
//! comparison with, and to see whether gimli's answers and the page agree.
//! Slow and short; it shares nothing with gimli's code.

use crate::added::{self, Added, Kept, MOST, Marks, Ranges, Tabled, Words, Wrote};
use crate::differ::{Found, MOST_ADDRESSES, Noted, Number, Port, Stack, in_words};
use oracle::oracle_api::{
    Answer, Converted, Form, Kind, List, Lists, Place, Raw, Refusal, State, Table, Yielded,
};

pub struct Model;

type Got<T> = Result<T, Refusal>;

fn no<T>(number: u8, value: u64) -> Got<T> {
    Err(Refusal { number, value })
}

/// Bytes with a place that moves on.
#[derive(Clone, Copy)]
struct Bytes<'a> {
    all: &'a [u8],
    at: usize,
    big: bool,
}

impl<'a> Bytes<'a> {
    fn at(all: &'a [u8], offset: u64, big: bool) -> Got<Bytes<'a>> {
        if offset > all.len() as u64 {
            return no(1, 0);
        }
        Ok(Bytes { all, at: offset as usize, big })
    }

    fn part(&mut self, count: u64) -> Got<&'a [u8]> {
        let start = self.at;
        if count > (self.all.len() - start) as u64 {
            return no(1, 0);
        }
        self.at += count as usize;
        Ok(&self.all[start..self.at])
    }

    fn fixed(&mut self, width: u8) -> Got<u64> {
        let part = self.part(u64::from(width))?;
        let byte = |i: usize| u64::from(part[if self.big { part.len() - 1 - i } else { i }]);
        Ok((0..part.len()).map(|i| byte(i) << (8 * i)).sum())
    }

    /// A number that has a shorter form is padded; it ends in 00 and isn't 00 alone.
    fn leb128(&mut self) -> Got<Number> {
        let (start, mut sum) = (self.at, 0);
        for i in 0..10 {
            let byte = self.fixed(1)?;
            if i == 9 && byte > 1 {
                return no(2, 0);
            }
            sum += (byte & 0x7f) << (7 * i);
            if byte < 0x80 {
                break;
            }
        }
        let length = (self.at - start) as u64;
        let padded = shortest(sum) < length;
        assert_eq!(padded, length > 1 && self.all[self.at - 1] == 0);
        Ok(Number { value: sum, next: self.at as u64, length, padded })
    }

    fn address(&mut self, size: u8) -> Got<u64> {
        if lawful(size) { self.fixed(size) } else { no(6, u64::from(size)) }
    }

    fn initial_length(&mut self) -> Got<(u64, bool)> {
        match self.fixed(4)? {
            0xffffffff => Ok((self.fixed(8)?, true)),
            value @ 0xfffffff0.. => no(8, value),
            length => Ok((length, false)),
        }
    }

    /// Initial length, the section cut to it, version, address size, segment
    /// size. Gives length, format, size, and where the cut is.
    fn header(&mut self) -> Got<(u64, bool, u8, usize)> {
        let (length, dwarf64) = self.initial_length()?;
        let end = Bytes { ..*self }.part(length).map(|part| self.at + part.len())?;
        let mut cut = Bytes { all: &self.all[..end], ..*self };
        let version = cut.fixed(2)?;
        if version != 5 {
            return no(5, version);
        }
        let size = cut.fixed(1)? as u8;
        if !lawful(size) {
            return no(6, u64::from(size));
        }
        let segment = cut.fixed(1)?;
        if segment != 0 {
            return no(7, segment);
        }
        self.at = cut.at;
        Ok((length, dwarf64, size, end))
    }
}

/// How many bytes the shortest form of a number has: one for each seven bits.
fn shortest(mut value: u64) -> u64 {
    let mut bytes = 1;
    while value > 0x7f {
        value >>= 7;
        bytes += 1;
    }
    bytes
}

fn lawful(size: u8) -> bool {
    [1, 2, 3, 4, 8].contains(&size)
}

/// Before all else on a walk.
fn walkable(list: &List) -> Got<()> {
    if lawful(list.address_size) { Ok(()) } else { no(6, u64::from(list.address_size)) }
}

/// 2^(8 × size).
fn beyond(size: u8) -> u128 {
    1 << (8 * u32::from(size))
}

fn bound(size: u8) -> u64 {
    (beyond(size) - 2) as u64
}

fn sum(a: u64, b: u64, size: u8) -> u64 {
    ((u128::from(a) + u128::from(b)) % beyond(size)) as u64
}

/// The operands of a kind.
#[derive(Clone, Copy)]
enum Operand {
    Leb,
    Address,
    /// Kind 3's length: four bytes in split lists up to version 4.
    Length,
}

/// The scope's table of kinds, in the numbers of locations: form, operands,
/// and whether an expression follows.
fn kind(code: u64) -> Option<(Form, &'static [Operand], bool)> {
    use Operand::*;
    Some(match code {
        1 => (Form::BaseIndex, &[Leb], false),
        2 => (Form::StartEndIndex, &[Leb, Leb], true),
        3 => (Form::StartLengthIndex, &[Leb, Length], true),
        4 => (Form::OffsetPair, &[Leb, Leb], true),
        5 => (Form::Default, &[], true),
        6 => (Form::Base, &[Address], false),
        7 => (Form::StartEnd, &[Address, Address], true),
        8 => (Form::StartLength, &[Address, Leb], true),
        _ => return None,
    })
}

fn chosen<'a>(list: &List<'a>) -> &'a [u8] {
    if list.version <= 4 { list.old } else { list.new }
}

fn expression(bytes: &mut Bytes, length: u64) -> Got<Option<Place>> {
    let offset = bytes.at as u64;
    bytes.part(length)?;
    Ok(Some(Place { offset, length }))
}

/// A bit for each LEB128 number of an entry, from the first on: 1 where it is
/// padded.
type Padded = u8;

/// A table of kind numbers, where there is one.
type Numbers<'a> = Option<&'a [u8]>;

/// What stands in a table for a code that has no kind.
pub const NO_KIND: u8 = 255;

/// The number of a code's kind. In a table 8 to 254 count as 255, and so does a
/// code past its end.
pub fn kind_number(kinds: &[u8], code: u8) -> u8 {
    kinds.get(usize::from(code)).copied().filter(|&number| number < 8).unwrap_or(NO_KIND)
}

/// Whether kinds stand in a list, as numbers of a byte.
pub fn is_coded(list: &List) -> bool {
    list.version > 4 || list.kind == Kind::SplitLocations
}

/// A raw entry, or none for the end mark.
fn raw(list: &List, kinds: Numbers, bytes: &mut Bytes) -> Got<Option<(Raw, Padded)>> {
    let (size, old, located) = (list.address_size, list.version <= 4, list.kind != Kind::Ranges);
    if !is_coded(list) {
        let (first, second) = (bytes.address(size)?, bytes.address(size)?);
        if (first, second) == (0, 0) {
            return Ok(None);
        }
        if u128::from(first) == beyond(size) - 1 {
            let base = Raw { form: Form::Base, first: second, second: 0, expression: None };
            return Ok(Some((base, 0)));
        }
        let expression = if located {
            let length = bytes.fixed(2)?;
            expression(bytes, length)?
        } else {
            None
        };
        return Ok(Some((Raw { form: Form::BarePair, first, second, expression }, 0)));
    }
    let code = bytes.fixed(1)?;
    let number = kinds.map_or(code, |kinds| kind_number(kinds, code as u8).into());
    if number == 0 {
        return Ok(None);
    }
    // Range kinds have no default: from 5 on they are one lower.
    let known = kind(if located || number < 5 { number } else { number + 1 });
    let Some((form, operands, described)) = known else {
        return no(if located { 4 } else { 3 }, code);
    };
    let (mut padded, mut bit) = (0, 1);
    let mut leb128 = |bytes: &mut Bytes| {
        let number = bytes.leb128()?;
        padded |= if number.padded { bit } else { 0 };
        bit <<= 1;
        Ok(number.value)
    };
    let mut numbers = [0; 2];
    for (number, operand) in numbers.iter_mut().zip(operands) {
        *number = match operand {
            Operand::Address => bytes.address(size)?,
            Operand::Length if located && old => bytes.fixed(4)?,
            Operand::Length | Operand::Leb => leb128(bytes)?,
        };
    }
    let expression = if located && described {
        let length = if old { bytes.fixed(2)? } else { leb128(bytes)? };
        expression(bytes, length)?
    } else {
        None
    };
    let [first, second] = numbers;
    Ok(Some((Raw { form, first, second, expression }, padded)))
}

/// The raw entry at a place of a list, and which of its numbers are padded.
pub fn entry(list: &List, place: u64) -> Option<(Raw, Padded)> {
    let mut bytes = Bytes::at(chosen(list), place, list.big_endian).ok()?;
    raw(list, None, &mut bytes).ok()?
}

/// What an entry says when its lookups have succeeded.
pub enum Says {
    Base(u64),
    /// `dead`: which of its addresses is at or above the tombstone bound, if one is.
    Bounds {
        begin: u64,
        end: u64,
        dead: Option<&'static str>,
    },
}

pub fn says(list: &List, base: u64, entry: Raw) -> Got<Says> {
    let size = list.address_size;
    let look = |index| address(list.table, list.big_endian, size, list.table_base, index);
    let (first, second) = (entry.first, entry.second);
    let mut added_to = None;
    let (begin, end) = match entry.form {
        Form::Base => return Ok(Says::Base(first)),
        Form::BaseIndex => return Ok(Says::Base(look(first)?)),
        Form::BarePair | Form::OffsetPair => {
            added_to = Some(base);
            (sum(base, first, size), sum(base, second, size))
        }
        Form::StartEndIndex => (look(first)?, look(second)?),
        Form::StartLengthIndex => {
            let begin = look(first)?;
            (begin, sum(begin, second, size))
        }
        Form::Default => (0, u64::MAX),
        Form::StartEnd => (first, second),
        Form::StartLength => (first, sum(first, second, size)),
    };
    let dead = match added_to {
        Some(base) if base >= bound(size) => Some("base"),
        _ if begin >= bound(size) => Some("begin"),
        _ => None,
    };
    Ok(Says::Bounds { begin, end, dead })
}

/// A range, or none for a base or a skipped range.
fn convert(list: &List, base: &mut u64, entry: Raw) -> Got<Option<Yielded>> {
    match says(list, *base, entry)? {
        Says::Base(address) => {
            *base = address;
            Ok(None)
        }
        Says::Bounds { begin, end, dead: None } if begin < end => {
            Ok(Some(Yielded { begin, end, expression: entry.expression }))
        }
        Says::Bounds { .. } => Ok(None),
    }
}

fn address(table: &[u8], big: bool, size: u8, base: u64, index: u64) -> Got<u64> {
    let mut bytes = Bytes::at(table, base, big)?;
    let Some(skip) = index.checked_mul(u64::from(size)) else { return no(9, 0) };
    bytes.part(skip)?;
    bytes.address(size)
}

fn rest(bytes: &Bytes) -> Place {
    Place { offset: bytes.at as u64, length: (bytes.all.len() - bytes.at) as u64 }
}

fn whole(bytes: &[u8], big: bool) -> Bytes<'_> {
    Bytes { all: bytes, at: 0, big }
}

/// The walk, with a table or without one.
impl Model {
    /// The next raw entry's form, and what the entry comes to.
    pub fn step(
        &self,
        list: &List,
        kinds: Numbers,
        walk: State,
    ) -> (Answer<(Form, Converted)>, State) {
        let (answer, mut walk) = self.next_raw_in(list, kinds, walk);
        let step = answer.map(|noted| {
            let (converted, after) = self.convert_raw(list, walk, noted.entry);
            walk = after;
            (noted.entry.form, converted)
        });
        (step, walk)
    }

    fn next_in(&self, list: &List, kinds: Numbers, mut walk: State) -> (Answer<Yielded>, State) {
        loop {
            let (step, after) = self.step(list, kinds, walk);
            walk = after;
            let answer = match step {
                Answer::Entry((_, Converted::Nothing)) => continue,
                Answer::Entry((_, Converted::Entry(entry))) => Answer::Entry(entry),
                Answer::Entry((_, Converted::Refused(refusal))) => Answer::Refused(refusal),
                Answer::End => Answer::End,
                Answer::Refused(refusal) => Answer::Refused(refusal),
            };
            return (answer, walk);
        }
    }

    /// In the profile 15 comes behind the raw entry, 16 and 17 behind its lookups, and
    /// each empties the walk.
    fn next_in_profile_in(
        &self,
        list: &List,
        kinds: Numbers,
        mut walk: State,
    ) -> (Answer<Yielded>, State) {
        loop {
            let (answer, after) = self.next_raw_in(list, kinds, walk);
            let Noted { entry, padded } = match answer {
                Answer::Entry(noted) => noted,
                Answer::End => return (Answer::End, after),
                Answer::Refused(refusal) => return (Answer::Refused(refusal), after),
            };
            let broken = |number| {
                let emptied = State { place: chosen(list).len() as u64, ..after };
                (Answer::Refused(Refusal { number, value: 0 }), emptied)
            };
            if padded {
                return broken(15);
            }
            walk = after;
            match says(list, walk.base_address, entry) {
                Err(refusal) => return (Answer::Refused(refusal), after),
                Ok(Says::Base(address)) => walk.base_address = address,
                Ok(Says::Bounds { dead: Some(_), .. }) => return broken(16),
                Ok(Says::Bounds { begin, end, .. }) if begin > end => return broken(17),
                Ok(Says::Bounds { begin, end, .. }) if begin == end => {}
                Ok(Says::Bounds { begin, end, .. }) => {
                    let expression = entry.expression;
                    return (Answer::Entry(Yielded { begin, end, expression }), after);
                }
            }
        }
    }

    /// All that is yielded up to the first refusal or the end, each by whether it is a
    /// default; then the first bounded one that holds the address. Without one a refusal
    /// is the answer, and then the first default, which holds all but 2^64 - 1. With the
    /// answer comes how many entries were read for it.
    fn lookup_in(&self, list: &List, kinds: Numbers, address: u64) -> (Found, u64) {
        let mut walk = match self.open(list) {
            Ok(walk) => walk,
            Err(refusal) => return (Answer::Refused(refusal), 0),
        };
        let (mut bounded, mut defaults) = (Vec::new(), Vec::new());
        let refused = loop {
            let (step, after) = self.step(list, kinds, walk);
            walk = after;
            match step {
                Answer::Entry((_, Converted::Nothing)) => {}
                Answer::Entry((Form::Default, Converted::Entry(entry))) => defaults.push(entry),
                Answer::Entry((_, Converted::Entry(entry))) => bounded.push((entry, walk.entries)),
                Answer::Entry((_, Converted::Refused(refusal))) => break Some(refusal),
                Answer::End => break None,
                Answer::Refused(refusal) => break Some(refusal),
            }
        };
        let holds = |(entry, _): &(Yielded, u64)| (entry.begin..entry.end).contains(&address);
        match (bounded.into_iter().find(holds), refused, defaults.first()) {
            (Some((entry, entries)), _, _) => (Answer::Entry(entry), entries),
            (None, Some(refusal), _) => (Answer::Refused(refusal), walk.entries),
            (None, None, Some(entry)) if address < u64::MAX => {
                (Answer::Entry(*entry), walk.entries)
            }
            (None, None, _) => (Answer::End, walk.entries),
        }
    }

    /// Single lookups, and the most entries that one of them reads.
    pub fn seen(&self, list: &List, kinds: Numbers, addresses: &[u64]) -> (Vec<Found>, u64) {
        let seen = addresses.iter().map(|&address| self.lookup_in(list, kinds, address));
        let (answers, entries): (Vec<Found>, Vec<u64>) = seen.unzip();
        (answers, entries.into_iter().max().unwrap_or(0))
    }

    fn lookups_in(
        &self,
        list: &List,
        kinds: Numbers,
        addresses: &[u64],
        found: &mut Stack,
    ) -> Got<u64> {
        if addresses.len() > MOST_ADDRESSES {
            return no(20, 0);
        }
        if !addresses.is_sorted() {
            return no(21, 0);
        }
        let (answers, entries) = self.seen(list, kinds, addresses);
        found.iter_mut().zip(answers).for_each(|(place, answer)| *place = in_words(answer));
        Ok(entries)
    }

    fn next_raw_in(&self, list: &List, kinds: Numbers, walk: State) -> (Answer<Noted>, State) {
        let section = chosen(list);
        let length = section.len() as u64;
        let emptied = State { place: length, ..walk };
        if let Err(refusal) = walkable(list) {
            return (Answer::Refused(refusal), emptied);
        }
        if walk.place >= length {
            return (Answer::End, walk);
        }
        let mut bytes = Bytes { all: section, at: walk.place as usize, big: list.big_endian };
        let entries = walk.entries.saturating_add(1);
        match raw(list, kinds, &mut bytes) {
            Ok(Some((entry, padded))) => {
                let noted = Noted { entry, padded: padded != 0 };
                (Answer::Entry(noted), State { place: bytes.at as u64, entries, ..walk })
            }
            Ok(None) => (Answer::End, State { entries, ..emptied }),
            Err(refusal) => (Answer::Refused(refusal), emptied),
        }
    }
}

impl Port for Model {
    fn open(&self, list: &List) -> Result<State, Refusal> {
        walkable(list)?;
        Bytes::at(chosen(list), list.offset, list.big_endian)?;
        Ok(State { place: list.offset, base_address: list.base_address, entries: 0 })
    }

    fn next(&self, list: &List, walk: State) -> (Answer<Yielded>, State) {
        self.next_in(list, None, walk)
    }

    fn next_in_profile(&self, list: &List, walk: State) -> (Answer<Yielded>, State) {
        self.next_in_profile_in(list, None, walk)
    }

    fn next_raw(&self, list: &List, walk: State) -> (Answer<Noted>, State) {
        self.next_raw_in(list, None, walk)
    }

    fn convert_raw(&self, list: &List, mut walk: State, entry: Raw) -> (Converted, State) {
        let base = &mut walk.base_address;
        let converted = match walkable(list).and_then(|()| convert(list, base, entry)) {
            Ok(Some(entry)) => Converted::Entry(entry),
            Ok(None) => Converted::Nothing,
            Err(refusal) => Converted::Refused(refusal),
        };
        (converted, walk)
    }

    fn lookup(&self, list: &List, address: u64) -> Found {
        self.lookup_in(list, None, address).0
    }

    fn lookups(&self, list: &List, addresses: &[u64], found: &mut Stack) -> Got<u64> {
        self.lookups_in(list, None, addresses, found)
    }

    fn get_address(&self, table: &[u8], big: bool, size: u8, base: u64, index: u64) -> Got<u64> {
        address(table, big, size, base, index)
    }

    fn next_table(&self, section: &[u8], big: bool, place: u64) -> (Answer<Table>, u64) {
        let length = section.len() as u64;
        if place >= length {
            return (Answer::End, place);
        }
        let mut bytes = Bytes { all: section, at: place as usize, big };
        match bytes.header() {
            Ok((stated, dwarf64, address_size, end)) => {
                let entries = Place { offset: bytes.at as u64, length: (end - bytes.at) as u64 };
                let table = Table {
                    offset: place,
                    length: stated,
                    dwarf64,
                    version: 5,
                    address_size,
                    entries,
                };
                (Answer::Entry(table), end as u64)
            }
            Err(refusal) => (Answer::Refused(refusal), length),
        }
    }

    fn next_entry(&self, section: &[u8], big: bool, size: u8, left: Place) -> (Answer<u64>, Place) {
        let end = left.offset + left.length;
        if left.length == 0 {
            return (Answer::End, left);
        }
        let mut bytes = Bytes { all: &section[..end as usize], at: left.offset as usize, big };
        match bytes.address(size) {
            Ok(address) => (Answer::Entry(address), rest(&bytes)),
            Err(refusal) => (Answer::Refused(refusal), Place { offset: end, length: 0 }),
        }
    }

    fn lists_header(&self, section: &[u8], big: bool) -> Got<Lists> {
        let mut bytes = whole(section, big);
        let (_, dwarf64, address_size, end) = bytes.header()?;
        let mut cut = Bytes { all: &section[..end], ..bytes };
        let entry_count = cut.fixed(4)? as u32;
        let size = if dwarf64 { 20 } else { 12 };
        Ok(Lists { dwarf64, version: 5, address_size, entry_count, size, rest: rest(&cut) })
    }

    fn get_offset(
        &self,
        _: Kind,
        section: &[u8],
        big: bool,
        dwarf64: bool,
        base: u64,
        index: u64,
    ) -> Got<u64> {
        let mut bytes = Bytes::at(section, base, big)?;
        let word = if dwarf64 { 8 } else { 4 };
        let Some(skip) = index.checked_mul(word) else { return no(9, 0) };
        bytes.part(skip)?;
        let offset = bytes.fixed(word as u8)?;
        base.checked_add(offset).ok_or(Refusal { number: 9, value: 0 })
    }

    fn default_base(&self, _: Kind, version: u16, dwarf64: bool, split_file: bool) -> u64 {
        match (version >= 5 && split_file, dwarf64) {
            (false, _) => 0,
            (true, false) => 12,
            (true, true) => 20,
        }
    }

    fn uleb128(&self, bytes: &[u8], at: u64) -> Got<Number> {
        Bytes::at(bytes, at, false)?.leb128()
    }

    fn read_number(&self, bytes: &[u8], big: bool, width: u8) -> Got<(u64, u64)> {
        Ok((whole(bytes, big).fixed(width)?, u64::from(width)))
    }

    fn read_address(&self, bytes: &[u8], big: bool, size: u8) -> Got<(u64, u64)> {
        Ok((whole(bytes, big).address(size)?, u64::from(size)))
    }

    fn read_offset(&self, bytes: &[u8], big: bool, dwarf64: bool) -> Got<(u64, u64)> {
        self.read_number(bytes, big, if dwarf64 { 8 } else { 4 })
    }

    fn initial_length(&self, bytes: &[u8], big: bool) -> Got<(u64, bool, u64)> {
        let mut bytes = whole(bytes, big);
        let (length, dwarf64) = bytes.initial_length()?;
        Ok((length, dwarf64, bytes.at as u64))
    }

    fn read_address_size(&self, bytes: &[u8]) -> Got<(u8, u64)> {
        let size = whole(bytes, false).fixed(1)?;
        if lawful(size as u8) { Ok((size as u8, 1)) } else { no(6, size) }
    }

    fn skip(&self, bytes: &[u8], count: u64) -> Got<Place> {
        Ok(rest(&Bytes::at(bytes, count, false)?))
    }

    fn split(&self, bytes: &[u8], count: u64) -> Got<(Place, Place)> {
        Ok((Place { offset: 0, length: count }, self.skip(bytes, count)?))
    }

    fn truncate(&self, bytes: &[u8], length: u64) -> Got<Place> {
        whole(bytes, false).part(length)?;
        Ok(Place { offset: 0, length })
    }

    fn wrapping_add_sized(&self, address: u64, length: u64, size: u8) -> u64 {
        sum(address, length, size)
    }

    fn min_tombstone(&self, size: u8) -> u64 {
        bound(size)
    }
}

/// Puts a range among runs that are apart: those it meets become one with it.
fn put(runs: &mut Ranges, (mut begin, mut end): (u64, u64)) {
    let meets = |run: &(u64, u64)| run.0 <= end && begin <= run.1;
    let from = runs.iter().position(meets);
    if let Some(from) = from {
        let count = runs[from..].iter().take_while(|run| meets(run)).count();
        begin = begin.min(runs[from].0);
        end = end.max(runs[from + count - 1].1);
        runs.splice(from..from + count, [(begin, end)]);
    } else {
        let at = runs.iter().take_while(|run| run.1 < begin).count();
        runs.insert(at, (begin, end));
    }
}

/// The runs of a list's walk.
fn runs(list: &List, kinds: Numbers) -> Got<Ranges> {
    let (mut walk, mut runs) = (Model.open(list)?, Ranges::new());
    for yielded in 0.. {
        let (answer, after) = Model.next_in(list, kinds, walk);
        walk = after;
        match answer {
            Answer::Entry(_) if yielded == MOST => return no(10, 0),
            Answer::Entry(entry) => put(&mut runs, (entry.begin, entry.end)),
            Answer::End => break,
            Answer::Refused(refusal) => return Err(refusal),
        }
    }
    Ok(runs)
}

fn keep(runs: Ranges, kept: &mut Kept) -> Wrote {
    *kept = added::kept(&runs);
    Ok(runs.len() as u64)
}

/// The begins, or the ends, at the front of a slice.
fn put_front(numbers: impl Iterator<Item = u64>, places: &mut [u64]) {
    places.iter_mut().zip(numbers).for_each(|(place, number)| *place = number);
}

fn put_runs(runs: Ranges, begins: &mut [u64], ends: &mut [u64]) -> Wrote {
    if begins.len().min(ends.len()) < runs.len() {
        return no(11, 0);
    }
    put_front(runs.iter().map(|run| run.0), begins);
    put_front(runs.iter().map(|run| run.1), ends);
    Ok(runs.len() as u64)
}

fn put_out(bytes: &[u8], output: &mut [u8]) -> Wrote {
    let Some(part) = output.get_mut(..bytes.len()) else { return no(11, 0) };
    part.copy_from_slice(bytes);
    Ok(bytes.len() as u64)
}

fn mark(number: u64, marks: &mut Marks) -> Got<&mut [u64; 5]> {
    if number > 7 { no(13, 0) } else { Ok(&mut marks[number as usize]) }
}

impl Added for Model {
    fn coverage(&self, list: &List, kept: &mut Kept) -> Wrote {
        keep(runs(list, None)?, kept)
    }

    fn runs(&self, list: &List, begins: &mut [u64], ends: &mut [u64]) -> Wrote {
        put_runs(runs(list, None)?, begins, ends)
    }

    fn coverage_from_canonical(&self, bytes: &[u8], kept: &mut Kept) -> Wrote {
        keep(runs(&added::canonical_list(bytes), None)?, kept)
    }

    fn coverage_from_sheet(&self, sheet: &[u8], kept: &mut Kept) -> Wrote {
        keep(added::sheet_ranges(sheet)?, kept)
    }

    fn sheet(&self, n: u64, kept: &Kept, output: &mut [u8]) -> Wrote {
        put_out(&added::sheet(&added::handed(n, kept)?), output)
    }

    fn canonical(&self, n: u64, kept: &Kept, output: &mut [u8]) -> Wrote {
        put_out(&added::canonical(&added::handed(n, kept)?), output)
    }

    fn canonical_of(&self, list: &List, output: &mut [u8]) -> Wrote {
        put_out(&added::canonical(&runs(list, None)?), output)
    }

    fn set_mark(&self, number: u64, walk: &mut Words, marks: &mut Marks) -> Got<()> {
        let [place, base_address, entries, split] = *walk;
        *mark(number, marks)? = [1, place, base_address, entries, split];
        Ok(())
    }

    fn return_to(&self, number: u64, walk: &mut Words, marks: &mut Marks) -> Got<()> {
        match *mark(number, marks)? {
            [0, ..] => no(13, 0),
            [_, stored @ ..] => {
                *walk = stored;
                Ok(())
            }
        }
    }
}

impl Tabled for Model {
    /// 19 unless there are 256 bytes, each the number of a kind or 255, no kind twice,
    /// and kind 0 among them.
    fn load_kinds(&self, table: &[u8]) -> Got<()> {
        let codes = |kind| table.iter().filter(|&&number| number == kind).count();
        let numbers = table.iter().all(|&number| number < 8 || number == NO_KIND);
        let once = (0..8).all(|kind| codes(kind) <= 1) && codes(0) == 1;
        if table.len() == 256 && numbers && once { Ok(()) } else { no(19, 0) }
    }

    fn next_by(&self, list: &List, kinds: &[u8], walk: State) -> (Answer<Yielded>, State) {
        self.next_in(list, Some(kinds), walk)
    }

    fn next_in_profile_by(
        &self,
        list: &List,
        kinds: &[u8],
        walk: State,
    ) -> (Answer<Yielded>, State) {
        self.next_in_profile_in(list, Some(kinds), walk)
    }

    fn next_raw_by(&self, list: &List, kinds: &[u8], walk: State) -> (Answer<Noted>, State) {
        self.next_raw_in(list, Some(kinds), walk)
    }

    fn lookup_by(&self, list: &List, kinds: &[u8], address: u64) -> Found {
        self.lookup_in(list, Some(kinds), address).0
    }

    fn lookups_by(
        &self,
        list: &List,
        kinds: &[u8],
        addresses: &[u64],
        found: &mut Stack,
    ) -> Got<u64> {
        self.lookups_in(list, Some(kinds), addresses, found)
    }

    fn coverage_by(&self, list: &List, kinds: &[u8], kept: &mut Kept) -> Wrote {
        keep(runs(list, Some(kinds))?, kept)
    }

    fn runs_by(&self, list: &List, kinds: &[u8], begins: &mut [u64], ends: &mut [u64]) -> Wrote {
        put_runs(runs(list, Some(kinds))?, begins, ends)
    }

    fn canonical_by(&self, list: &List, kinds: &[u8], output: &mut [u8]) -> Wrote {
        put_out(&added::canonical(&runs(list, Some(kinds))?), output)
    }
}
