//! A call as a line, and the oracle's answers to it as lines.

use generator::READ;
use oracle::oracle_api::{self as gimli, *};
use std::collections::{BTreeMap, BTreeSet};
use std::fmt::Write;

/// The lists in the order of the calls on them: a list has four calls.
pub const KINDS: [Kind; 3] = [Kind::Ranges, Kind::Locations, Kind::SplitLocations];

/// The calls by the numbers that the crate replay knows them by.
pub const NEXT: u64 = 0;
pub const CONVERT: u64 = 1;
pub const RAW: u64 = 2;
pub const LOOKUP: u64 = 3;
pub const GET_ADDRESS: u64 = 12;
pub const TABLES: u64 = 13;
pub const LISTS_HEADER: u64 = 14;
pub const RANGE_OFFSET: u64 = 15;
pub const LOCATION_OFFSET: u64 = 16;
pub const LEB128: u64 = 17;
pub const READS: u64 = 18;
pub const SUMS: u64 = 19;
pub const BASES: u64 = 20;

/// The most bytes of a section, and the most calls on a walk.
const ROOM: usize = 256;
const CALLS: u64 = 64;

#[derive(Clone, Default)]
pub struct Call {
    pub what: u64,
    pub size: u8,
    pub version: u16,
    pub big_endian: bool,
    pub dwarf64: bool,
    pub numbers: [u64; 4],
    pub old: Vec<u8>,
    pub new: Vec<u8>,
    pub table: Vec<u8>,
}

/// How often each answer occurs, by call, answer and circumstances.
#[derive(Default)]
pub struct Met(BTreeMap<Key, u64>);

#[derive(Clone, PartialEq, Eq, PartialOrd, Ord)]
pub struct Key {
    what: u64,
    answer: String,
    size: u8,
    big_endian: bool,
    version: u16,
}

impl Key {
    fn like(&self, other: &Key) -> bool {
        let other_size = |key: &Key| !READ.contains(&key.size);
        let sizes = self.size == other.size || other_size(self) && other_size(other);
        self.what == other.what && self.answer == other.answer && sizes
    }
}

impl Met {
    pub fn join(&mut self, other: Met) {
        for (key, count) in other.0 {
            *self.0.entry(key).or_default() += count;
        }
    }

    /// Whether a call, an answer and a size occur here and not in `other`.
    pub fn more_than(&self, other: &Met) -> bool {
        self.0.keys().any(|key| !other.0.keys().any(|old| old.like(key)))
    }

    /// A row for each call and answer: all, by size, by order, by version.
    pub fn print(&self) {
        type Column = (&'static str, fn(&Key) -> bool);
        let columns: [Column; 14] = [
            ("all", |_| true),
            ("1", |key| key.size == 1),
            ("2", |key| key.size == 2),
            ("3", |key| key.size == 3),
            ("4", |key| key.size == 4),
            ("8", |key| key.size == 8),
            ("other", |key| !READ.contains(&key.size)),
            ("little", |key| !key.big_endian),
            ("big", |key| key.big_endian),
            ("to v2", |key| key.version <= 2),
            ("v3", |key| key.version == 3),
            ("v4", |key| key.version == 4),
            ("v5", |key| key.version == 5),
            ("from v6", |key| key.version >= 6),
        ];
        let rows: BTreeSet<(u64, &str)> =
            self.0.keys().map(|key| (key.what, key.answer.as_str())).collect();
        print!("{:>22}  {:<30}", "call", "answer");
        columns.iter().for_each(|(name, _)| print!("{name:>8}"));
        println!();
        for (what, answer) in rows {
            print!("{:>22}  {answer:<30}", name(what));
            for (_, holds) in columns {
                let counts = self
                    .0
                    .iter()
                    .filter(|(key, _)| key.what == what && key.answer == answer && holds(key));
                print!("{:>8}", counts.map(|(_, count)| count).sum::<u64>());
            }
            println!();
        }
    }
}

fn name(what: u64) -> String {
    let list = ["ranges", "locations", "split"];
    let call = ["next", "convert_raw", "raw", "lookup"];
    match what {
        0..12 => format!("{} {}", list[what as usize / 4], call[what as usize % 4]),
        GET_ADDRESS => "get_address".into(),
        TABLES => "address tables".into(),
        LISTS_HEADER => "lists header".into(),
        RANGE_OFFSET => "range offset".into(),
        LOCATION_OFFSET => "location offset".into(),
        LEB128 => "LEB128".into(),
        READS => "reads".into(),
        SUMS => "sums".into(),
        _ => "default bases".into(),
    }
}

fn hex(bytes: &[u8]) -> String {
    bytes.iter().fold(String::from(":"), |text, byte| text + &format!("{byte:02x}"))
}

/// gimli's name of a form.
fn form(form: Form) -> &'static str {
    match form {
        Form::BarePair => "AddressOrOffsetPair",
        Form::Base => "BaseAddress",
        Form::BaseIndex => "BaseAddressx",
        Form::StartEndIndex => "StartxEndx",
        Form::StartLengthIndex => "StartxLength",
        Form::OffsetPair => "OffsetPair",
        Form::Default => "DefaultLocation",
        Form::StartEnd => "StartEnd",
        Form::StartLength => "StartLength",
    }
}

fn refused(refusal: Refusal) -> String {
    format!("refused {:x} {:x}", refusal.number, refusal.value)
}

fn expression(place: Place) -> String {
    format!(" expression {:x} {:x}", place.offset, place.length)
}

fn yielded(entry: Yielded) -> String {
    match entry.expression {
        None => format!("range {:x} {:x}", entry.begin, entry.end),
        Some(place) => format!("location {:x} {:x}{}", entry.begin, entry.end, expression(place)),
    }
}

fn stands(place: u64, base_address: u64) -> String {
    format!(" at {place:x} base {base_address:x}")
}

/// The crate prints no count of entries, for gimli has none.
fn walk_stands(walk: &mut Walk) -> String {
    let state = walk.state();
    stands(state.place, state.base_address)
}

/// How many calls a walk still gets: one more after the end was said.
fn fewer(left: u64, ended: bool) -> u64 {
    if ended && 2 <= left { 1 } else { left - 1 }
}

/// The answers to one call under way, and whether gimli refused size 3.
struct Lines<'a> {
    call: &'a Call,
    text: String,
    three: bool,
    met: &'a mut Met,
}

impl Lines<'_> {
    fn put(&mut self, answer: &str, line: String) {
        self.text += &line;
        self.text.push('\n');
        let key = Key {
            what: self.call.what,
            answer: answer.into(),
            size: self.call.size,
            big_endian: self.call.big_endian,
            version: self.call.version,
        };
        *self.met.0.entry(key).or_default() += 1;
    }

    fn refused(&mut self, about: &str, refusal: Refusal, more: String) {
        self.three |= refusal == THREE;
        self.put(&format!("{about}refused {}", refusal.number), refused(refusal) + &more);
    }

    fn result<T>(&mut self, about: &str, got: Result<T, Refusal>, line: impl Fn(T) -> String) {
        match got {
            Ok(value) => self.put(&format!("{about}value"), line(value)),
            Err(refusal) => self.refused(about, refusal, String::new()),
        }
    }

    /// What an entry says, with two zeros for an expression that it lacks.
    fn raw(&mut self, list: &List, entry: Raw, stands: &str) {
        let mut line = format!("{} {:x} {:x}", form(entry.form), entry.first, entry.second);
        if list.kind != Kind::Ranges {
            line += &expression(entry.expression.unwrap_or(Place { offset: 0, length: 0 }));
        }
        self.put(form(entry.form), line + stands);
    }

    fn convert(&mut self, walk: &mut Walk, entry: Raw) {
        let about = format!("{}: ", form(entry.form));
        match walk.convert_raw(entry) {
            Converted::Entry(got) => {
                self.put(&format!("{about}yielded"), yielded(got) + &walk_stands(walk));
            }
            Converted::Nothing => {
                self.put(&format!("{about}nothing"), String::from("nothing") + &walk_stands(walk));
            }
            Converted::Refused(refusal) => self.refused(&about, refusal, walk_stands(walk)),
        }
    }

    fn walk(&mut self, list: &List, style: u64) {
        let mut walk = match Walk::open(list) {
            Ok(walk) => walk,
            Err(refusal) => return self.refused("open: ", refusal, String::new()),
        };
        self.put("opened", String::from("opened") + &walk_stands(&mut walk));
        let mut left = CALLS;
        while 0 < left {
            let ended = if style == NEXT {
                let answer = walk.next();
                let stands = walk_stands(&mut walk);
                match answer {
                    Answer::Entry(entry) => self.put("yielded", yielded(entry) + &stands),
                    Answer::End => self.put("end", String::from("end") + &stands),
                    Answer::Refused(refusal) => self.refused("", refusal, stands),
                }
                answer == Answer::End
            } else {
                let answer = walk.next_raw();
                let stands = walk_stands(&mut walk);
                match answer {
                    Answer::Entry(entry) => {
                        self.raw(list, entry, &stands);
                        self.convert(&mut walk, entry);
                    }
                    Answer::End => self.put("end", String::from("end") + &stands),
                    Answer::Refused(refusal) => self.refused("", refusal, stands),
                }
                answer == Answer::End
            };
            left = fewer(left, ended);
        }
    }

    fn raw_walk(&mut self, list: &List) {
        let mut walk = match RawWalk::open(list) {
            Ok(walk) => walk,
            Err(refusal) => return self.refused("open: ", refusal, String::new()),
        };
        self.put("opened", String::from("opened") + &stands(walk.place(), 0));
        let mut left = CALLS;
        while 0 < left {
            let answer = walk.next();
            let stands = stands(walk.place(), 0);
            match answer {
                Answer::Entry(entry) => self.raw(list, entry, &stands),
                Answer::End => self.put("end", String::from("end") + &stands),
                Answer::Refused(refusal) => self.refused("", refusal, stands),
            }
            left = fewer(left, answer == Answer::End);
        }
    }

    fn look_up(&mut self, list: &List, address: u64) {
        match gimli::lookup(list, address) {
            Answer::Entry(entry) => self.put("found", yielded(entry)),
            Answer::End => self.put("not there", "not there".into()),
            Answer::Refused(refusal) => self.refused("", refusal, String::new()),
        }
    }

    fn tables(&mut self, section: &[u8], big_endian: bool) {
        let mut tables = Tables::open(section, big_endian);
        let mut left = CALLS;
        while 0 < left {
            let answer = tables.next();
            let at = format!(" at {:x}", tables.place());
            let ended = matches!(answer, Answer::End);
            match answer {
                Answer::Entry((table, entries)) => {
                    let format = if table.dwarf64 { 64 } else { 32 };
                    let mut line = format!("table {:x} {:x}", table.offset, table.length);
                    write!(line, " format {format} version {:x}", table.version).unwrap();
                    write!(line, " size {:x}", table.address_size).unwrap();
                    let place = table.entries;
                    write!(line, " entries {:x} {:x}", place.offset, place.length).unwrap();
                    self.put(&format!("table, format {format}"), line + &at);
                    self.entries(entries);
                }
                Answer::End => self.put("end of tables", String::from("end") + &at),
                Answer::Refused(refusal) => self.refused("table: ", refusal, at),
            }
            left = fewer(left, ended);
        }
    }

    fn entries(&mut self, mut entries: Entries) {
        let mut left = CALLS;
        while 0 < left {
            let answer = entries.next();
            let rest = format!(" left {:x}", entries.left());
            match answer {
                Answer::Entry(address) => {
                    self.put("address", format!("address {address:x}") + &rest)
                }
                Answer::End => self.put("end of addresses", String::from("end") + &rest),
                Answer::Refused(refusal) => self.refused("address: ", refusal, rest),
            }
            left = fewer(left, answer == Answer::End);
        }
    }

    fn lists_header(&mut self, section: &[u8], big_endian: bool) {
        match gimli::lists_header(section, big_endian) {
            Ok(header) => {
                let format = if header.dwarf64 { 64 } else { 32 };
                let mut line = format!("header {:x} format {format}", header.size);
                write!(line, " version {:x}", header.version).unwrap();
                write!(line, " size {:x}", header.address_size).unwrap();
                write!(line, " count {:x}", header.entry_count).unwrap();
                let rest = header.rest;
                write!(line, " rest {:x} {:x}", rest.offset, rest.length).unwrap();
                self.put(&format!("header, format {format}"), line);
            }
            Err(refusal) => self.refused("", refusal, String::new()),
        }
    }

    fn reads(&mut self, b: &[u8], big: bool, size: u8, count: u64) {
        let number = |(value, taken): (u64, u64)| format!("value {value:x} {taken:x}");
        for width in [1, 2, 4, 8] {
            let about = format!("u{}: ", 8 * width);
            self.result(&about, gimli::read_number(b, big, width), number);
        }
        self.result("address: ", gimli::read_address(b, big, size), number);
        let size = gimli::read_address_size(b).map(|(size, taken)| (u64::from(size), taken));
        self.result("address size: ", size, number);
        self.result("offset, format 32: ", gimli::read_offset(b, big, false), number);
        self.result("offset, format 64: ", gimli::read_offset(b, big, true), number);
        self.result(
            "initial length: ",
            gimli::initial_length(b, big),
            |(length, dwarf64, taken)| {
                format!("length {length:x} {} {taken:x}", if dwarf64 { 8 } else { 4 })
            },
        );
        self.result("skip: ", gimli::skip(b, count), |left| format!("value {:x}", left.offset));
        self.result("split: ", gimli::split(b, count), |(first, left)| {
            format!("part {:x} {:x} {:x}", first.offset, first.length, left.offset)
        });
        self.result("truncate: ", gimli::truncate(b, count), |left| {
            format!("value {:x} {:x}", left.offset + left.length, left.offset)
        });
    }
}

impl Call {
    pub fn line(&self) -> String {
        let [a, b, c, d] = self.numbers;
        format!(
            "{:x} {:x} {:x} {} {} {a:x} {b:x} {c:x} {d:x} {} {} {}\n",
            self.what,
            self.size,
            self.version,
            u8::from(self.big_endian),
            u8::from(self.dwarf64),
            hex(&self.old),
            hex(&self.new),
            hex(&self.table),
        )
    }

    pub fn list(&self) -> List<'_> {
        List {
            kind: KINDS[self.what as usize / 4],
            old: &self.old,
            new: &self.new,
            offset: self.numbers[0],
            version: self.version,
            address_size: self.size,
            dwarf64: self.dwarf64,
            big_endian: self.big_endian,
            base_address: self.numbers[1],
            table: &self.table,
            table_base: self.numbers[2],
        }
    }

    /// The answers; none for a listed difference or a section that is too long.
    pub fn answers(&self, met: &mut Met) -> Option<String> {
        if [&self.old, &self.new, &self.table].iter().any(|section| ROOM < section.len()) {
            return None;
        }
        let mut lines = Lines { call: self, text: String::new(), three: false, met };
        let ([a, b, _, d], t, big) = (self.numbers, &self.table, self.big_endian);
        let value = |value: u64| format!("value {value:x}");
        match self.what {
            0..12 => {
                assert!([1, 2, 4, 8].contains(&self.size));
                match self.what % 4 {
                    RAW => lines.raw_walk(&self.list()),
                    LOOKUP => lines.look_up(&self.list(), d),
                    style => lines.walk(&self.list(), style),
                }
            }
            GET_ADDRESS => lines.result("", gimli::get_address(t, big, self.size, a, b), value),
            TABLES => lines.tables(t, big),
            LISTS_HEADER => lines.lists_header(t, big),
            RANGE_OFFSET | LOCATION_OFFSET => {
                let kind = KINDS[usize::from(self.what == LOCATION_OFFSET)];
                let about = if self.dwarf64 { "format 64: " } else { "format 32: " };
                match gimli::get_offset(kind, t, big, self.dwarf64, a, b) {
                    OffsetAnswer::Offset(offset) => lines.result(about, Ok(offset), value),
                    OffsetAnswer::Refused(refusal) => lines.result(about, Err(refusal), value),
                    OffsetAnswer::SumTooLarge => return None,
                }
            }
            LEB128 => lines.result("", gimli::uleb128(t), |(value, taken)| {
                format!("value {value:x} {taken:x}")
            }),
            READS => lines.reads(t, big, self.size, a),
            SUMS => {
                lines.put("sum", value(gimli::wrapping_add_sized(a, b, self.size)));
                lines.put("tombstone bound", value(gimli::min_tombstone(self.size)));
                lines.put("ones", value(gimli::ones_sized(self.size)));
            }
            _ => {
                for split in [false, true] {
                    let base = |kind| gimli::default_base(kind, self.version, self.dwarf64, split);
                    let (ranges, locations) = (base(Kind::Ranges), base(Kind::Locations));
                    let about = if split { "split file" } else { "main file" };
                    lines.put(about, format!("bases {ranges:x} {locations:x}"));
                }
            }
        }
        (!lines.three).then_some(lines.text)
    }
}
