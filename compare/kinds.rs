//! Compares tables of kind numbers. gimli has none: it walks the list with each
//! kind byte that reading meets replaced by its kind's number, and the port walks
//! the list as it is, with the table. By the fixed table the port is held to what
//! gimli tells of the list itself, and so it is for bare pairs by any table. Which
//! bytes are kind bytes is the model's to say, which reads with the table; and so
//! is whether a table may be loaded.

use generator::{Case, FIXED, ListCase, READ, Random, SIZES};
use oracle::oracle_api::*;

use crate::added::{self, Added, Kept, Marks, Tabled, Words, Wrote};
use crate::differ::{self, Found, Met, Noted, Number, Port, Stack, list_of, walk_by_hand};
use crate::model::{Model, NO_KIND, is_coded, kind_number};
use crate::{built, marks, padded, profile, stacks};

/// A list as it is, and the same renumbered from a place on.
struct Renumbered<'a> {
    own: &'a [u8],
    bytes: Vec<u8>,
    /// The code at which reading is refused, since the table has no kind for it.
    without: Option<u8>,
}

impl<'a> Renumbered<'a> {
    fn new(list: &List<'a>, kinds: &[u8], place: u64) -> Renumbered<'a> {
        let own = list.section();
        let (mut bytes, mut without) = (own.to_vec(), None);
        kind_bytes(list, kinds, place, |at| {
            bytes[at] = kind_number(kinds, own[at]);
            without = Some(own[at]).filter(|_| bytes[at] == NO_KIND);
        });
        Renumbered { own, bytes, without }
    }

    fn list<'b>(&'b self, list: &List<'b>) -> List<'b> {
        if is_coded(list) { List { new: &self.bytes, ..*list } } else { *list }
    }
}

/// The places of the kind bytes that reading by a table meets.
fn kind_bytes(list: &List, kinds: &[u8], place: u64, mut met: impl FnMut(usize)) {
    let mut walk = State { place, base_address: 0, entries: 0 };
    while is_coded(list) && walk.place < list.section().len() as u64 {
        met(walk.place as usize);
        // An end and a refusal leave the walk at the section's end.
        walk = Model.next_raw_by(list, kinds, walk).1;
    }
}

/// A reader by a table of kind numbers. Asked about a renumbered list it reads the
/// list as it is; in a refusal by 3 the list's code and 255 then change places, so
/// that it has to answer as is due for the renumbered list.
struct By<'a, P> {
    port: &'a P,
    kinds: &'a [u8],
    renumbered: Option<&'a Renumbered<'a>>,
}

impl<P> By<'_, P> {
    fn own<'b>(&'b self, list: &List<'b>) -> List<'b> {
        assert_eq!(list.kind, Kind::Ranges);
        match self.renumbered {
            Some(renumbered) if is_coded(list) => List { new: renumbered.own, ..*list },
            _ => *list,
        }
    }

    fn told(&self, refusal: Refusal) -> Refusal {
        let (none, without) = (NO_KIND.into(), self.renumbered.and_then(|list| list.without));
        let value = match (refusal, without.map(u64::from)) {
            (Refusal { number: 3, value }, Some(code)) if value == code => none,
            (Refusal { number: 3, value }, Some(code)) if value == none => code,
            (Refusal { value, .. }, _) => value,
        };
        Refusal { value, ..refusal }
    }

    fn answer<T>(&self, answer: Answer<T>) -> Answer<T> {
        match answer {
            Answer::Refused(refusal) => Answer::Refused(self.told(refusal)),
            answer => answer,
        }
    }

    fn wrote(&self, wrote: Wrote) -> Wrote {
        wrote.map_err(|refusal| self.told(refusal))
    }
}

/// The calls that take no table.
macro_rules! passed_on {
    ($($call:ident($($name:ident: $type:ty),*) -> $answer:ty;)*) => {
        $(fn $call(&self, $($name: $type),*) -> $answer {
            self.port.$call($($name),*)
        })*
    };
}

impl<P: Tabled> Port for By<'_, P> {
    fn open(&self, list: &List) -> Result<State, Refusal> {
        self.port.open(&self.own(list))
    }

    fn next(&self, list: &List, walk: State) -> (Answer<Yielded>, State) {
        let (answer, after) = self.port.next_by(&self.own(list), self.kinds, walk);
        (self.answer(answer), after)
    }

    fn next_in_profile(&self, list: &List, walk: State) -> (Answer<Yielded>, State) {
        let (answer, after) = self.port.next_in_profile_by(&self.own(list), self.kinds, walk);
        (self.answer(answer), after)
    }

    fn next_raw(&self, list: &List, walk: State) -> (Answer<Noted>, State) {
        let (answer, after) = self.port.next_raw_by(&self.own(list), self.kinds, walk);
        (self.answer(answer), after)
    }

    fn lookup(&self, list: &List, address: u64) -> Found {
        self.answer(self.port.lookup_by(&self.own(list), self.kinds, address))
    }

    fn lookups(&self, list: &List, addresses: &[u64], found: &mut Stack) -> Wrote {
        let read = self.port.lookups_by(&self.own(list), self.kinds, addresses, found);
        let answered = if read.is_ok() { addresses.len() } else { 0 };
        for [result, value, ..] in found.iter_mut().take(answered) {
            if *result == differ::refused_with(3) {
                *value = self.told(Refusal { number: 3, value: *value }).value;
            }
        }
        self.wrote(read)
    }

    passed_on! {
        convert_raw(list: &List, walk: State, entry: Raw) -> (Converted, State);
        get_address(t: &[u8], big: bool, size: u8, base: u64, index: u64) -> Result<u64, Refusal>;
        next_table(section: &[u8], big: bool, place: u64) -> (Answer<Table>, u64);
        next_entry(section: &[u8], big: bool, size: u8, rest: Place) -> (Answer<u64>, Place);
        lists_header(section: &[u8], big: bool) -> Result<Lists, Refusal>;
        get_offset(kind: Kind, section: &[u8], big: bool, dwarf64: bool, base: u64, index: u64)
            -> Result<u64, Refusal>;
        default_base(kind: Kind, version: u16, dwarf64: bool, split_file: bool) -> u64;
        uleb128(bytes: &[u8], at: u64) -> Result<Number, Refusal>;
        read_number(bytes: &[u8], big: bool, width: u8) -> Result<(u64, u64), Refusal>;
        read_address(bytes: &[u8], big: bool, size: u8) -> Result<(u64, u64), Refusal>;
        read_offset(bytes: &[u8], big: bool, dwarf64: bool) -> Result<(u64, u64), Refusal>;
        initial_length(bytes: &[u8], big: bool) -> Result<(u64, bool, u64), Refusal>;
        read_address_size(bytes: &[u8]) -> Result<(u8, u64), Refusal>;
        skip(bytes: &[u8], count: u64) -> Result<Place, Refusal>;
        split(bytes: &[u8], count: u64) -> Result<(Place, Place), Refusal>;
        truncate(bytes: &[u8], length: u64) -> Result<Place, Refusal>;
        wrapping_add_sized(address: u64, length: u64, size: u8) -> u64;
        min_tombstone(size: u8) -> u64;
    }
}

impl<P: Tabled> Added for By<'_, P> {
    fn coverage(&self, list: &List, kept: &mut Kept) -> Wrote {
        self.wrote(self.port.coverage_by(&self.own(list), self.kinds, kept))
    }

    fn runs(&self, list: &List, begins: &mut [u64], ends: &mut [u64]) -> Wrote {
        self.wrote(self.port.runs_by(&self.own(list), self.kinds, begins, ends))
    }

    fn canonical_of(&self, list: &List, output: &mut [u8]) -> Wrote {
        self.wrote(self.port.canonical_by(&self.own(list), self.kinds, output))
    }

    passed_on! {
        coverage_from_canonical(bytes: &[u8], kept: &mut Kept) -> Wrote;
        coverage_from_sheet(sheet: &[u8], kept: &mut Kept) -> Wrote;
        sheet(n: u64, kept: &Kept, output: &mut [u8]) -> Wrote;
        canonical(n: u64, kept: &Kept, output: &mut [u8]) -> Wrote;
        set_mark(number: u64, walk: &mut Words, marks: &mut Marks) -> Result<(), Refusal>;
        return_to(number: u64, walk: &mut Words, marks: &mut Marks) -> Result<(), Refusal>;
    }
}

/// Why a table isn't loaded, or that it is.
fn sort(table: &[u8]) -> &'static str {
    let has = |number: &u8| table.contains(number);
    match Model.load_kinds(table) {
        Ok(()) if (0..8).all(|kind| has(&kind)) => "loaded, all kinds",
        Ok(()) => "loaded, some kinds",
        Err(_) if table.len() != 256 => "not 256 bytes",
        Err(_) if (8..NO_KIND).any(|other| has(&other)) => "8 to 254",
        Err(_) if !has(&0) => "no code for kind 0",
        Err(_) => "two codes for a kind",
    }
}

/// The codes that a table has for a kind, or those without one.
fn codes_of(kinds: &[u8], number: u8) -> Vec<u8> {
    (0..=255).filter(|&code| kind_number(kinds, code) == number).collect()
}

fn load(port: &impl Tabled, table: &[u8], met: &mut Met) -> Result<(), String> {
    met.met(format!("table: {}", sort(table)));
    let (due, got) = (Model.load_kinds(table), port.load_kinds(table));
    met.measured(true, |met| met.same("load_kinds", &due, &got))
        .map_err(|error| format!("{error}\n{table:x?}"))
}

/// How many changes of the fixed table there are: each byte at each code.
pub const CHANGES: u64 = 256 * 256;

/// Loads the fixed table with one byte changed, and with two codes that change
/// places.
pub fn change(port: &impl Tabled, index: u64, met: &mut Met) -> Result<(), String> {
    let [.., code, byte] = index.to_be_bytes();
    let mut table = FIXED;
    table[usize::from(code)] = byte;
    load(port, &table, met)?;
    let mut table = FIXED;
    table.swap(code.into(), byte.into());
    load(port, &table, met)
}

/// Loads a table of each sort, and a lawful one cut or lengthened.
pub fn tables(port: &impl Tabled, seed: u64, met: &mut Met) -> Result<(), String> {
    let r = &mut Random::new(seed ^ KINDS);
    load(port, &generator::any_table(r, &[]), met)?;
    let mut table = generator::lawful_table(r);
    load(port, &table, met)?;
    let other = if r.one_in(1, 2) { NO_KIND } else { r.next() as u8 };
    table.extend([other; 256]);
    let length = r.pick(&[0, 1, 8, 255, 256, 257, 511, 512]);
    load(port, &table[..length], met)
}

/// Walks one short list by tables.
pub fn short(port: &impl Tabled, bytes: &[u8], met: &mut Met) -> Result<(), String> {
    short_by(port, bytes, |by, list| differ::answers(by, list, met))
}

/// Looks the borders of one short list up by tables.
pub fn short_stacks(port: &impl Tabled, bytes: &[u8], met: &mut Met) -> Result<(), String> {
    short_by(port, bytes, |by, list| stacks::borders(by, list, met))
}

/// Walks one short list in the profile by tables.
pub fn short_profile(port: &impl Tabled, bytes: &[u8], met: &mut Met) -> Result<(), String> {
    short_by(port, bytes, |by, list| profile::short(by, list, met))
}

/// One short list at size 1, by the fixed table and by others: with the numbers the
/// other way round, with every number at many codes, some of them with numbers that
/// aren't kinds, and with ends that come early.
fn short_by<P: Tabled>(
    port: &P,
    bytes: &[u8],
    mut one: impl FnMut(&By<P>, &List) -> Result<(), String>,
) -> Result<(), String> {
    let turned: Vec<u8> = (0..=255).map(|code| if code < 8 { 7 - code } else { 0xff }).collect();
    let many: Vec<u8> = (0..=255).map(|code| code / 3 % 12).collect();
    let early = [0, 1, 13, 255].map(|length| &many[..length]);
    let tables = [[&FIXED, &turned[..], &many].as_slice(), &early].concat();
    for kinds in tables {
        for version in [4, 5] {
            let list = List {
                kind: Kind::Ranges,
                old: bytes,
                new: bytes,
                offset: 0,
                version,
                address_size: 1,
                dwarf64: false,
                big_endian: false,
                base_address: 0xf8,
                table: &[0x10, 0x18, 0xfe],
                table_base: 0,
            };
            let renumbered = &Renumbered::new(&list, kinds, 0);
            let by = By { port, kinds, renumbered: Some(renumbered) };
            one(&by, &renumbered.list(&list))?;
        }
    }
    Ok(())
}

/// All calls of a seed's cases about range lists, by the fixed table.
pub fn fixed(port: &impl Tabled, seed: u64, met: &mut Met) -> Result<(), String> {
    let by = &By { port, kinds: &FIXED, renumbered: None };
    let of_ranges = |case: &ListCase| case.kind == generator::Kind::Ranges;
    for sizes in [SIZES.as_slice(), &[3]] {
        let case = generator::case(seed, sizes);
        if matches!(&case, Case::List(list) if of_ranges(list)) {
            differ::compare(by, &case, seed, met)?;
        }
    }
    let case = generator::list_case(&mut Random::new(seed), &READ);
    if of_ranges(&case) {
        marks::compare(by, &case, seed, met)?;
    }
    let case = generator::padded_list(seed);
    if of_ranges(&case) {
        padded::list(by, &case, seed, met)?;
    }
    Ok(())
}

/// Bare pairs, which have no use for a table: all calls by any.
pub fn bare(port: &impl Tabled, seed: u64, met: &mut Met) -> Result<(), String> {
    let r = &mut Random::new(seed ^ KINDS);
    let case = generator::range_list(r, &READ, true);
    let kinds = &generator::any_table(r, &case.old);
    let by = &By { port, kinds, renumbered: None };
    padded::list(by, &case, seed, met)
        .and_then(|()| differ::compare(by, &Case::List(case.clone()), seed, met))
        .map_err(|error| format!("{error}\n{case:x?}\nby {kinds:x?}"))
}

/// A list with the codes of a table for its kinds, and codes that have none for what
/// has none.
fn recoded(r: &mut Random, list: &List, kinds: &[u8]) -> Vec<u8> {
    let mut bytes = list.section().to_vec();
    kind_bytes(list, &FIXED, list.offset, |at| {
        let numbers = [kind_number(&FIXED, bytes[at]), NO_KIND];
        let codes = numbers.map(|number| codes_of(kinds, number));
        if let Some(codes) = codes.iter().find(|codes| !codes.is_empty()) {
            bytes[at] = r.pick(codes);
        }
    });
    bytes
}

/// A seed's other numbers.
const KINDS: u64 = 0x6b696e6473;

/// A list and a table of any sort: all calls from its offset, and calls on walks made
/// by hand.
pub fn list(port: &impl Tabled, seed: u64, met: &mut Met) -> Result<(), String> {
    let r = &mut Random::new(seed ^ KINDS);
    let case = generator::range_list(r, &READ, false);
    let (case, kinds) = &with_table(r, case, met);
    all(port, &list_of(case), kinds, seed, met)
        .map_err(|error| format!("{error}\n{case:x?}\nby {kinds:x?}"))
}

/// A list of entries with kinds, and a table. The list has the table's codes, or the
/// fixed ones, or it is any bytes.
fn with_table(r: &mut Random, mut case: ListCase, met: &mut Met) -> (ListCase, Vec<u8>) {
    let kinds = generator::any_table(r, &case.new);
    met.met(format!("table: {}", sort(&kinds)));
    match r.below(8) {
        0 => met.met("list as it is".into()),
        1 => {
            met.met("list of any bytes".into());
            let codes: Vec<u8> = (0..8).flat_map(|kind| codes_of(&kinds, kind)).collect();
            case.new = generator::bytes_of(r, if codes.is_empty() { &[0] } else { &codes });
            case.offset = r.below(1 + case.new.len() as u64 / 2);
        }
        _ => {
            met.met("list with the table's codes".into());
            case.new = recoded(r, &list_of(&case), &kinds);
        }
    }
    (case, kinds)
}

/// Stacks of addresses in a list by a table: any, and of many ranges; and in bare pairs
/// by any table.
pub fn stacks(port: &impl Tabled, seed: u64, met: &mut Met) -> Result<(), String> {
    let r = &mut Random::new(seed ^ KINDS ^ !0);
    let case = match r.below(8) {
        0 => generator::range_list(r, &READ, true),
        1..=4 => generator::range_list(r, &READ, false),
        _ => stacks::many_ranges(r, &[generator::Kind::Ranges]),
    };
    let (mut case, kinds) = if case.version > 4 {
        with_table(r, case, met)
    } else {
        let kinds = generator::any_table(r, &case.old);
        (case, kinds)
    };
    stacks::spoil(r, &mut case);
    let list = &list_of(&case);
    let renumbered = &Renumbered::new(list, &kinds, list.offset);
    let by = By { port, kinds: &kinds, renumbered: Some(renumbered) };
    stacks::some(&by, &renumbered.list(list), r, met)
        .map_err(|error| format!("{error}\n{case:x?}\nby {kinds:x?}"))
}

fn all(
    port: &impl Tabled,
    list: &List,
    kinds: &[u8],
    seed: u64,
    met: &mut Met,
) -> Result<(), String> {
    let r = &mut Random::new(!(seed ^ KINDS));
    let renumbered = &Renumbered::new(list, kinds, list.offset);
    if let Some(code) = renumbered.without {
        met.met(format!("a code without a kind, {}", if code < 8 { "0 to 7" } else { "from 8" }));
    }
    let by = By { port, kinds, renumbered: Some(renumbered) };
    differ::from_its_offset(&by, &renumbered.list(list), seed, met)?;
    for _ in 0..4 {
        let walk = walk_by_hand(r, list);
        let renumbered = &Renumbered::new(list, kinds, walk.place);
        let by = By { port, kinds, renumbered: Some(renumbered) };
        differ::by_hand(&by, &renumbered.list(list), walk, met)?;
    }
    Ok(())
}

/// Profile walks of a list by a table, from its opening and from walks made by hand; one
/// list in eight is of bare pairs.
pub fn profiles(port: &impl Tabled, seed: u64, met: &mut Met) -> Result<(), String> {
    let r = &mut Random::new(seed ^ KINDS);
    let bare = r.one_in(1, 8);
    let case = profile::range_list(r, bare);
    let (case, kinds) = &if bare {
        let kinds = generator::any_table(r, &case.old);
        (case, kinds)
    } else {
        with_table(r, case, met)
    };
    let list = &list_of(case);
    met.measured_at(list.address_size, |met| {
        let renumbered = &Renumbered::new(list, kinds, list.offset);
        let by = By { port, kinds, renumbered: Some(renumbered) };
        profile::opened(&by, &renumbered.list(list), r, met)?;
        (0..3).try_for_each(|_| {
            let walk = profile::by_hand(r, list);
            let renumbered = &Renumbered::new(list, kinds, walk.place);
            let by = By { port, kinds, renumbered: Some(renumbered) };
            profile::walk(&by, &renumbered.list(list), walk, met)
        })
    })
    .map_err(|error| format!("{error}\n{case:x?}\nby {kinds:x?}"))
}

/// A list of many ranges with the codes of a table that may be loaded: its coverage,
/// runs and canonical list.
pub fn many(port: &impl Tabled, seed: u64, met: &mut Met) -> Result<(), String> {
    let r = &mut Random::new(seed ^ KINDS);
    let mut case = built::list_case(r, &READ);
    while case.kind != generator::Kind::Ranges {
        case = built::list_case(r, &READ);
    }
    let kinds = &generator::lawful_table(r);
    if case.version > 4 {
        case.new = recoded(r, &list_of(&case), kinds);
    }
    let list = &list_of(&case);
    let renumbered = &Renumbered::new(list, kinds, list.offset);
    let by = By { port, kinds, renumbered: Some(renumbered) };
    met.measured_at(list.address_size, |met| {
        added::list(&by, &renumbered.list(list), r, false, met)
    })
}
