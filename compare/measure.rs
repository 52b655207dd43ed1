//! Whose answers count: gimli's, and the model's at address sizes that gimli
//! refuses: at 3, and, for walks made by hand, at those that aren't read. Of
//! numbers and raw entries gimli tells no padding: that is the model's, which has
//! to read the same number or entry there.

use crate::differ::{Found, MOST_ADDRESSES, Noted, Number, Port};
use crate::model::{self, Model};
use generator::SIZES;
use oracle::oracle_api::{self as gimli, *};

/// Whether gimli reads addresses of a size.
pub fn gimli_reads(size: u8) -> bool {
    SIZES.contains(&size)
}

fn moved<T>((answer, after): (T, State), state: &mut State) -> T {
    *state = after;
    answer
}

/// gimli's number at a place, with the model's length and padding.
pub fn uleb128(bytes: &[u8], at: u64) -> Result<Number, Refusal> {
    let rest = bytes.get(at as usize..).ok_or(Refusal { number: 1, value: 0 })?;
    let (value, taken) = gimli::uleb128(rest)?;
    let plain = Model.uleb128(bytes, at).expect("a number");
    assert_eq!((value, at + taken), (plain.value, plain.next));
    Ok(plain)
}

/// The lookup by gimli's walk, or the model's.
pub fn lookup(list: &List, address: u64) -> Found {
    if gimli_reads(list.address_size) {
        gimli::lookup(list, address)
    } else {
        Model.lookup(list, address)
    }
}

/// Single lookups, and how many raw entries the longest of them reads; or the refusal
/// of addresses that are too many or descend.
pub fn lookups(list: &List, addresses: &[u64]) -> Result<(Vec<Found>, u64), Refusal> {
    if addresses.len() > MOST_ADDRESSES {
        return Err(Refusal { number: 20, value: 0 });
    }
    if addresses.windows(2).any(|pair| pair[0] > pair[1]) {
        return Err(Refusal { number: 21, value: 0 });
    }
    let by_gimli = gimli_reads(list.address_size);
    Ok(if by_gimli { gimli::lookups(list, addresses) } else { Model.seen(list, None, addresses) })
}

/// gimli's entry at a place of a list, with the model's padding.
pub fn noted(list: &List, place: u64, entry: Raw) -> Noted {
    let (read, padded) = model::entry(list, place).expect("an entry");
    assert_eq!(entry, read);
    Noted { entry, padded: padded != 0 }
}

/// gimli's raw answers about a list from its opening on, with the model's
/// padding; what comes with each stays.
pub fn noted_answers<T>(
    list: &List,
    answers: impl IntoIterator<Item = (Answer<Raw>, T)>,
) -> impl Iterator<Item = (Answer<Noted>, T)> {
    let mut state = State { place: list.offset, base_address: 0, entries: 0 };
    answers.into_iter().map(move |(answer, with)| {
        let place = state.place;
        state = Model.next_raw(list, state).1;
        (answer.map(|entry| noted(list, place, entry)), with)
    })
}

/// A walk of gimli's, or the model's, the count that the walk was handed in with,
/// and how far past the section's end it stands.
pub struct Walk<'a> {
    list: List<'a>,
    by: By<'a>,
    pub from: u64,
    past: u64,
}

enum By<'a> {
    Gimli(gimli::Walk<'a>),
    Model(State),
}

impl<'a> Walk<'a> {
    pub fn open(list: &List<'a>) -> Result<Walk<'a>, Refusal> {
        let by = if gimli_reads(list.address_size) {
            gimli::Walk::open(list).map(By::Gimli)
        } else {
            Model.open(list).map(By::Model)
        };
        by.map(|by| Walk { list: *list, by, from: 0, past: 0 })
    }

    /// A walk made by hand. gimli's is one that is opened at the place; past the
    /// end it has none, and the one at the end moves as little.
    pub fn by_hand(list: &List<'a>, state: State) -> Walk<'a> {
        if !gimli_reads(list.address_size) {
            return Walk { list: *list, by: By::Model(state), from: 0, past: 0 };
        }
        let offset = state.place.min(list.section().len() as u64);
        let list = List { offset, base_address: state.base_address, ..*list };
        let walk = gimli::Walk::open(&list).expect("a place of the section");
        Walk { list, by: By::Gimli(walk), from: state.entries, past: state.place - offset }
    }

    pub fn next(&mut self) -> Answer<Yielded> {
        match &mut self.by {
            By::Gimli(walk) => walk.next(),
            By::Model(state) => moved(Model.next(&self.list, *state), state),
        }
    }

    pub fn next_in_profile(&mut self) -> Answer<Yielded> {
        match &mut self.by {
            By::Gimli(walk) => walk.next_in_profile(),
            By::Model(state) => moved(Model.next_in_profile(&self.list, *state), state),
        }
    }

    pub fn next_raw(&mut self) -> Answer<Noted> {
        match &mut self.by {
            By::Gimli(walk) => {
                let place = walk.state().place;
                walk.next_raw().map(|entry| noted(&self.list, place, entry))
            }
            By::Model(state) => moved(Model.next_raw(&self.list, *state), state),
        }
    }

    pub fn convert_raw(&mut self, entry: Raw) -> Converted {
        match &mut self.by {
            By::Gimli(walk) => walk.convert_raw(entry),
            By::Model(state) => moved(Model.convert_raw(&self.list, *state, entry), state),
        }
    }

    /// A count that can't rise stays.
    pub fn state(&mut self) -> State {
        let state = match &mut self.by {
            By::Gimli(walk) => walk.state(),
            By::Model(state) => *state,
        };
        State {
            place: state.place + self.past,
            entries: self.from.saturating_add(state.entries),
            ..state
        }
    }

    /// Every answer of `next` up to the first end, and how many raw entries were
    /// read by then; a refusal at opening is the only one.
    pub fn answers(list: &List) -> Vec<(Answer<Yielded>, u64)> {
        if gimli_reads(list.address_size) {
            return gimli::walk_counted(list);
        }
        let mut state = match Model.open(list) {
            Ok(state) => state,
            Err(refusal) => return vec![(Answer::Refused(refusal), 0)],
        };
        let mut answers = Vec::new();
        while !matches!(answers.last(), Some((Answer::End, _))) {
            let answer = moved(Model.next(list, state), &mut state);
            answers.push((answer, state.entries));
        }
        answers
    }
}

/// The tables of a section with the entries of the last one, by gimli, or by the
/// model where gimli meets size 3 anywhere in the section.
pub enum Tables<'a> {
    Gimli(gimli::Tables<'a>, Option<gimli::Entries<'a>>),
    Model { section: &'a [u8], big_endian: bool, place: u64, size: u8, rest: Place },
}

impl<'a> Tables<'a> {
    pub fn open(section: &'a [u8], big_endian: bool) -> Tables<'a> {
        let gimli = || gimli::Tables::open(section, big_endian);
        let mut tables = gimli();
        let answers = trace(usize::MAX, || tables.next().map(|_| ()));
        if !answers.contains(&Answer::Refused(THREE)) {
            return Tables::Gimli(gimli(), None);
        }
        let rest = Place { offset: 0, length: 0 };
        Tables::Model { section, big_endian, place: 0, size: 0, rest }
    }

    pub fn by_model(&self) -> bool {
        matches!(self, Tables::Model { .. })
    }

    pub fn next(&mut self) -> Answer<Table> {
        match self {
            Tables::Gimli(tables, last) => tables.next().map(|(table, entries)| {
                *last = Some(entries);
                table
            }),
            Tables::Model { section, big_endian, place, size, rest } => {
                let (answer, after) = Model.next_table(section, *big_endian, *place);
                *place = after;
                answer.map(|table| {
                    (*size, *rest) = (table.address_size, table.entries);
                    table
                })
            }
        }
    }

    /// The place of the next table.
    pub fn place(&self) -> u64 {
        match self {
            Tables::Gimli(tables, _) => tables.place(),
            Tables::Model { place, .. } => *place,
        }
    }

    /// The next entry of the last table.
    pub fn next_entry(&mut self) -> Answer<u64> {
        match self {
            Tables::Gimli(_, entries) => entries.as_mut().expect("a table").next(),
            Tables::Model { section, big_endian, size, rest, .. } => {
                let (answer, after) = Model.next_entry(section, *big_endian, *size, *rest);
                *rest = after;
                answer
            }
        }
    }

    /// How many bytes of its entries are left.
    pub fn left(&self) -> u64 {
        match self {
            Tables::Gimli(_, entries) => entries.as_ref().expect("a table").left(),
            Tables::Model { rest, .. } => rest.length,
        }
    }
}
