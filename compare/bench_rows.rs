//! The rows of the benchmark: lists made byte by byte, and what is done with
//! each.

#[derive(Debug, Clone, Copy, PartialEq, Eq)]
pub enum Kind {
    Ranges,
    Locations,
    /// `locations_dwo`.
    SplitLocations,
}

#[derive(Debug, Clone, Copy, PartialEq, Eq)]
pub enum Task {
    /// Open the list and call `next` up to the end.
    Walk,
    /// The first entry that holds the address.
    Lookup(u64),
    /// The first that isn't a default location, or else the first default location.
    LookupPastDefaults(u64),
    Coverage,
    /// The coverage's ranges at the front of slices, and nothing else.
    Runs,
    Canonical,
    /// The sheet of the list's coverage, written, and read back.
    Sheet,
    FromSheet,
    /// The headers of the address section, one after the other.
    Headers,
    /// The walk, and behind each entry a mark is set and returned to.
    Marks,
    /// Open the list and call the raw `next` up to the end.
    Raw,
    /// Open the list, which keeps to the profile, and call the profile's `next` up to
    /// the end.
    Profile,
    /// LEB128 numbers, one after the other; the section holds nothing else.
    Numbers,
    /// Loading a table of kind numbers.
    Load,
}

/// A table of kind numbers, and the row's section with its codes.
#[derive(Clone, Copy)]
pub struct Tabled {
    pub kinds: &'static [u8],
    pub section: &'static [u8],
}

/// A list, what its reading depends on, and the task. `yields` is how many
/// ranges the list has, or tables the address section, or numbers the section,
/// `entries` how many entries the task reads; a time is divided by it. Bytes stay
/// until the program ends, so that rows can share them.
#[derive(Clone)]
pub struct Row {
    pub name: String,
    pub task: Task,
    pub kind: Kind,
    pub section: &'static [u8],
    pub offset: u64,
    pub table: &'static [u8],
    pub table_base: u64,
    pub base_address: u64,
    pub version: u16,
    pub address_size: u8,
    pub dwarf64: bool,
    pub big_endian: bool,
    pub yields: u64,
    pub entries: u64,
    /// Where the port reads by a table; gimli reads the row's section.
    pub tabled: Option<Tabled>,
}

/// What an entry is, whatever its code in range and in location lists.
#[derive(Debug, Clone, Copy, PartialEq, Eq)]
enum Form {
    BarePair,
    BaseIndex,
    StartEndIndex,
    StartLengthIndex,
    OffsetPair,
    /// An offset pair that stands apart from all others.
    FarPair,
    Default,
    Base,
    StartEnd,
    StartLength,
}

use Form::{BarePair, Base, BaseIndex, Default, FarPair, OffsetPair};
use Form::{StartEnd, StartEndIndex, StartLength, StartLengthIndex};

impl Form {
    fn is_base(self) -> bool {
        matches!(self, Base | BaseIndex)
    }
}

/// The forms in the order of their codes, from 1.
const RANGE_FORMS: [Form; 7] =
    [BaseIndex, StartEndIndex, StartLengthIndex, OffsetPair, Base, StartEnd, StartLength];
const LOCATION_FORMS: [Form; 8] =
    [BaseIndex, StartEndIndex, StartLengthIndex, OffsetPair, Default, Base, StartEnd, StartLength];

/// Which form the entry at an index has.
#[derive(Clone, Copy)]
enum Pattern {
    All(Form),
    /// A base address, then eight offset pairs.
    Bases,
    /// The last three forms of a linked program, in no order.
    Mixed,
    /// A default location, then all of a form.
    Behind(Form),
}

impl Pattern {
    fn form(self, index: u64) -> Form {
        match self {
            Pattern::All(form) => form,
            Pattern::Bases if index % 9 == 0 => Base,
            Pattern::Bases => OffsetPair,
            Pattern::Mixed => {
                [StartLength, StartEnd, StartLengthIndex][(spread(index) % 3) as usize]
            }
            Pattern::Behind(_) if index == 0 => Default,
            Pattern::Behind(form) => form,
        }
    }
}

/// Numbers without a visible order, the same in every run.
fn spread(index: u64) -> u64 {
    let mixed = (index + 1).wrapping_mul(0x9e37_79b9_7f4a_7c15);
    (mixed ^ (mixed >> 29)).wrapping_mul(0xbf58_476d_1ce4_e5b9) >> 33
}

const TABLE_ENTRIES: u64 = 256;
const TABLE_BASE: usize = 8;
const LIST_OFFSET: usize = 12;
const BASE_ADDRESS: u64 = 0x1000;
/// Distance of two begins in lists of address size 4 and 8; every length is
/// below it.
const STEP: u64 = 0x400;

/// The begin and the length of the range at an index. Below address size 4
/// they repeat.
fn span(index: u64, size: u8) -> (u64, u64) {
    match size {
        1 => (1 + index % 100, 1 + spread(index) % 100),
        2 => (0x100 + index % 64 * 0x100, 1 + spread(index) % 0x200),
        4 => (0x10000 + index * STEP, 1 + spread(index) % 0x200),
        _ => (0x7f00_0000_0000 + index * STEP, 1 + spread(index) % 0x200),
    }
}

/// The begin of an offset pair, one of nine.
fn offset(index: u64, size: u8) -> u64 {
    if size == 1 { index % 9 } else { index % 9 * 0x60 }
}

struct Writer {
    out: Vec<u8>,
    kind: Kind,
    version: u16,
    size: u8,
    big: bool,
}

impl Writer {
    fn fixed(&mut self, value: u64, width: u8) {
        let bytes = value.to_le_bytes();
        let bytes = &bytes[..width as usize];
        if self.big {
            self.out.extend(bytes.iter().rev());
        } else {
            self.out.extend(bytes);
        }
    }

    fn address(&mut self, value: u64) {
        self.fixed(value, self.size);
    }

    fn uleb128(&mut self, mut value: u64) {
        while value > 0x7f {
            self.out.push(0x80 | value as u8);
            value >>= 7;
        }
        self.out.push(value as u8);
    }

    fn code(&mut self, form: Form) {
        let form = if form == FarPair { OffsetPair } else { form };
        let forms: &[Form] = if self.kind == Kind::Ranges { &RANGE_FORMS } else { &LOCATION_FORMS };
        let code = 1 + forms.iter().position(|&other| other == form).expect("a form of this kind");
        self.out.push(code as u8);
    }

    /// An expression of one to three bytes.
    fn expression(&mut self, index: u64) {
        let length = 1 + spread(index + 7) % 3;
        if self.version <= 4 {
            self.fixed(length, 2);
        } else {
            self.uleb128(length);
        }
        self.out.extend(&[0x91, 0x68, 0x06][..length as usize]);
    }

    fn numbers(&mut self, form: Form, index: u64) {
        let (begin, length) = span(index, self.size);
        match form {
            BaseIndex => self.uleb128(index % TABLE_ENTRIES),
            StartEndIndex => {
                self.uleb128(index % 100);
                self.uleb128(index % 100 + 1 + spread(index) % 100);
            }
            StartLengthIndex => {
                self.uleb128(index % 150);
                if self.kind == Kind::SplitLocations && self.version <= 4 {
                    self.fixed(length, 4);
                } else {
                    self.uleb128(length);
                }
            }
            OffsetPair => {
                let offset = offset(index, self.size);
                self.uleb128(offset);
                self.uleb128(offset + length);
            }
            FarPair => {
                self.uleb128(index * STEP);
                self.uleb128(index * STEP + length);
            }
            Default => {}
            Base => self.address(begin),
            StartEnd | BarePair => {
                self.address(begin);
                self.address(begin + length);
            }
            StartLength => {
                self.address(begin);
                self.uleb128(length);
            }
        }
    }

    fn entry(&mut self, form: Form, index: u64) {
        if form != BarePair {
            self.code(form);
        }
        self.numbers(form, index);
        if self.kind != Kind::Ranges && !form.is_base() {
            self.expression(index);
        }
    }

    fn end(&mut self, bare: bool) {
        if bare {
            self.address(0);
            self.address(0);
        } else {
            self.out.push(0);
        }
    }
}

/// Addresses in ascending order, after the room of a header.
fn table(size: u8, big: bool) -> Vec<u8> {
    let out = vec![0; TABLE_BASE];
    let mut writer = Writer { out, kind: Kind::Ranges, version: 5, size, big };
    for index in 0..TABLE_ENTRIES {
        let address = match size {
            1 => (index + 1).min(200),
            2 => 0x100 + index * 0x80,
            _ => span(index, size).0,
        };
        writer.address(address);
    }
    writer.out
}

/// What a row is made from.
#[derive(Clone, Copy)]
struct Plan {
    kind: Kind,
    version: u16,
    size: u8,
    big: bool,
    pattern: Pattern,
    by_table: bool,
}

impl Plan {
    fn new(kind: Kind, pattern: Pattern, size: u8, big: bool) -> Plan {
        let bare = matches!(pattern, Pattern::All(BarePair));
        let version = if bare { 4 } else { 5 };
        Plan { kind, version, size, big, pattern, by_table: false }
    }

    /// The first word of a row's name.
    fn by(self) -> &'static str {
        if self.by_table { "kinds-" } else { "" }
    }

    fn bare(self) -> bool {
        self.version <= 4 && self.kind != Kind::SplitLocations
    }

    /// The list of the ranges with these indexes.
    fn row(self, name: String, indexes: impl Iterator<Item = u64>) -> Row {
        let Plan { kind, version, size, big, pattern, by_table } = self;
        let mut writer = Writer { out: vec![0; LIST_OFFSET], kind, version, size, big };
        let (mut yields, mut entries, mut starts) = (0, 0, Vec::new());
        for index in indexes {
            let form = pattern.form(index);
            starts.push(writer.out.len());
            writer.entry(form, index);
            yields += u64::from(!form.is_base());
            entries += 1;
        }
        starts.push(writer.out.len());
        writer.end(self.bare());
        let codes_at = if self.bare() { &[][..] } else { &starts };
        let tabled = by_table.then(|| tabled(writer.out.clone(), codes_at));
        Row {
            name,
            task: Task::Walk,
            kind,
            section: writer.out.leak(),
            offset: LIST_OFFSET as u64,
            table: table(size, big).leak(),
            table_base: TABLE_BASE as u64,
            // A bare pair's begin is an address already.
            base_address: if self.bare() || size == 1 { 0 } else { BASE_ADDRESS },
            version,
            address_size: size,
            dwarf64: false,
            big_endian: big,
            yields,
            entries,
            tabled,
        }
    }
}

/// The codes of the kinds of range list entries in a table, without an order.
const CODES: [u8; 8] = [0x5d, 0x12, 0xc4, 0x31, 0xe9, 0x07, 0x9a, 0x44];

const KINDS: [u8; 256] = {
    let mut kinds = [0xff; 256];
    let mut kind = 0;
    while kind < CODES.len() {
        kinds[CODES[kind] as usize] = kind as u8;
        kind += 1;
    }
    kinds
};

/// A section with the table's codes at these places.
fn tabled(mut section: Vec<u8>, codes_at: &[usize]) -> Tabled {
    codes_at.iter().for_each(|&at| section[at] = CODES[usize::from(section[at])]);
    Tabled { kinds: &KINDS, section: section.leak() }
}

fn kind_word(kind: Kind) -> &'static str {
    match kind {
        Kind::Ranges => "range",
        Kind::Locations => "location",
        Kind::SplitLocations => "split",
    }
}

fn order_word(big: bool) -> &'static str {
    if big { "big" } else { "little" }
}

/// Every kind of entry alone, by its code, and the mixes.
fn patterns(kind: Kind) -> Vec<(String, Pattern)> {
    let forms: &[Form] = if kind == Kind::Ranges { &RANGE_FORMS } else { &LOCATION_FORMS };
    let mut patterns: Vec<_> =
        (1..).zip(forms).map(|(code, &form)| (format!("{code}"), Pattern::All(form))).collect();
    patterns.push(("bare".into(), Pattern::All(BarePair)));
    patterns.push(("bases".into(), Pattern::Bases));
    patterns.push(("mixed".into(), Pattern::Mixed));
    patterns
}

/// Where no address is read, size and byte order play no part.
fn without_addresses(pattern: Pattern) -> bool {
    matches!(pattern, Pattern::All(OffsetPair | Default))
}

const ORDERS: [bool; 2] = [false, true];

/// The rows whose names are wanted; no others are made.
struct Rows<'a> {
    wanted: &'a dyn Fn(&str) -> bool,
    rows: Vec<Row>,
}

impl Rows<'_> {
    fn add(&mut self, name: String, row: impl FnOnce(String) -> Row) {
        if (self.wanted)(&name) {
            self.rows.push(row(name));
        }
    }
}

/// No range holds it: ends are at most 2^64 - 1, and not held.
pub const NOWHERE: u64 = u64::MAX;

/// A short and a long walk, and the same inside a lookup in vain, which meets
/// every entry: there the port's loop and its one caller of `next` stand in one
/// function, as gimli's with one caller do.
fn walk(rows: &mut Rows<'_>, word: &str, plan: Plan) {
    let (kind, size, order) = (kind_word(plan.kind), plan.size, order_word(plan.big));
    for count in [3, 1000] {
        let name = format!("{}{kind}-{word}-{size}-{order}-{count}", plan.by());
        rows.add(name, |name| plan.row(name, 0..count));
        let name = format!("{}inside-{kind}-{word}-{size}-{order}-{count}", plan.by());
        rows.add(name, |name| Row { task: Task::Lookup(NOWHERE), ..plan.row(name, 0..count) });
    }
}

fn walks(rows: &mut Rows<'_>) {
    for kind in [Kind::Ranges, Kind::Locations] {
        for (word, pattern) in patterns(kind) {
            let sizes: &[u8] = if without_addresses(pattern) { &[4, 8] } else { &[1, 2, 4, 8] };
            let orders: &[bool] = if without_addresses(pattern) { &[false] } else { &ORDERS };
            for &size in sizes {
                orders.iter().for_each(|&big| {
                    walk(rows, &word, Plan::new(kind, pattern, size, big));
                });
            }
        }
    }
    for (word, form) in [("4-3", StartLengthIndex), ("4-7", StartEnd)] {
        let plan = Plan::new(Kind::SplitLocations, Pattern::All(form), 8, false);
        walk(rows, word, Plan { version: 4, ..plan });
    }
}

/// Lookups at the front, in the middle, at the end, and in vain. The list's
/// ranges don't overlap.
fn lookup(rows: &mut Rows<'_>, word: &str, plan: Plan, count: u64) {
    let (kind, size, order) = (kind_word(plan.kind), plan.size, order_word(plan.big));
    let places = [("front", 0), ("middle", count / 2), ("end", count - 1), ("absent", count)];
    for (place, index) in places {
        let name = format!("lookup-{place}-{kind}-{word}-{size}-{order}-{count}");
        rows.add(name, |name| Row {
            task: Task::Lookup(span(index, size).0),
            entries: (index + 1).min(count),
            ..plan.row(name, 0..count)
        });
    }
}

fn lookups(rows: &mut Rows<'_>) {
    for kind in [Kind::Ranges, Kind::Locations] {
        let code = if kind == Kind::Ranges { "7" } else { "8" };
        for (word, form) in [(code, StartLength), ("bare", BarePair)] {
            for big in ORDERS {
                let plan = Plan::new(kind, Pattern::All(form), 8, big);
                lookup(rows, word, plan, 3);
                lookup(rows, word, plan, 1000);
            }
        }
    }
}

/// Lookups behind a default location, which is the first entry: of an address that
/// the last entry alone holds beside it, and of one that no other does.
fn defaults(rows: &mut Rows<'_>) {
    let size = 8;
    for (word, form) in [("4", OffsetPair), ("8", StartLength)] {
        let plan = Plan::new(Kind::Locations, Pattern::Behind(form), size, false);
        let range = |index| {
            let (begin, length) = span(index, size);
            let pair = BASE_ADDRESS + offset(index, size);
            let begin = if form == OffsetPair { pair } else { begin };
            begin..begin + length
        };
        for count in [3, 1000] {
            let address = range(count).end - 1;
            let others = (1..).filter(|&index| !range(index).contains(&address));
            let others = others.take(count as usize - 1);
            let indexes: Vec<u64> = [0].into_iter().chain(others).chain([count]).collect();
            for (place, address) in [("end", address), ("alone", 0)] {
                let name = format!("lookup-default-{place}-location-{word}-{size}-little-{count}");
                rows.add(name, |name| Row {
                    task: Task::LookupPastDefaults(address),
                    ..plan.row(name, indexes.iter().copied())
                });
            }
        }
    }
}

/// Indexes below `count`, each once, without a visible order.
fn shuffled(count: u64) -> Vec<u64> {
    let mut indexes: Vec<u64> = (0..count).collect();
    indexes.sort_by_key(|&index| spread(index));
    indexes
}

/// Coverage, as arrays and as runs, and canonical list of ranges that neither
/// overlap nor touch.
fn sets(rows: &mut Rows<'_>, by_table: bool, counts: &[u64]) {
    let plan = Plan::new(Kind::Ranges, Pattern::All(StartLength), 8, false);
    let plan = Plan { by_table, ..plan };
    let tasks =
        [("coverage", Task::Coverage), ("runs", Task::Runs), ("canonical", Task::Canonical)];
    for (word, task) in tasks {
        for &count in counts {
            let orders = [
                ("ascending", (0..count).collect::<Vec<_>>()),
                ("descending", (0..count).rev().collect()),
                ("random", shuffled(count)),
            ];
            for (order, indexes) in orders {
                let name = format!("{}{word}-{order}-{count}", plan.by());
                rows.add(name, |name| Row { task, ..plan.row(name, indexes.into_iter()) });
            }
        }
    }
}

/// Sheets of ranges that neither overlap nor touch.
fn sheets(rows: &mut Rows<'_>) {
    let plan = Plan::new(Kind::Ranges, Pattern::All(StartLength), 8, false);
    for (word, task) in [("sheet", Task::Sheet), ("from-sheet", Task::FromSheet)] {
        for count in [1, 1024, 3000] {
            let name = format!("{word}-{count}");
            rows.add(name, |name| Row { task, ..plan.row(name, 0..count) });
        }
    }
}

/// Address tables of up to three addresses, each with its header.
fn tables(size: u8, big: bool, dwarf64: bool, count: u64) -> Vec<u8> {
    let mut writer = Writer { out: Vec::new(), kind: Kind::Ranges, version: 5, size, big };
    for index in 0..count {
        let addresses = spread(index) % 4;
        let length = 4 + addresses * u64::from(size);
        if dwarf64 {
            writer.fixed(0xffff_ffff, 4);
        }
        writer.fixed(length, if dwarf64 { 8 } else { 4 });
        writer.fixed(5, 2);
        writer.out.extend([size, 0]);
        (0..addresses).for_each(|row| writer.address(span(row, size).0));
    }
    writer.out
}

fn headers(rows: &mut Rows<'_>) {
    let plans = [
        (1, false, false),
        (4, false, false),
        (8, false, false),
        (8, true, false),
        (8, false, true),
    ];
    for (size, big, dwarf64) in plans {
        let (order, format) = (order_word(big), if dwarf64 { 64 } else { 32 });
        for count in [3, 1000] {
            rows.add(format!("headers-{size}-{order}-{format}-{count}"), |name| Row {
                task: Task::Headers,
                table: tables(size, big, dwarf64, count).leak(),
                dwarf64,
                yields: count,
                entries: count,
                ..Plan::new(Kind::Ranges, Pattern::Mixed, size, big).row(name, 0..0)
            });
        }
    }
}

fn growth(rows: &mut Rows<'_>) {
    let plans = [
        ("range-7", Kind::Ranges, Pattern::All(StartLength)),
        ("range-bases", Kind::Ranges, Pattern::Bases),
        ("location-8", Kind::Locations, Pattern::All(StartLength)),
        ("location-bare", Kind::Locations, Pattern::All(BarePair)),
    ];
    for (word, kind, pattern) in plans {
        let plan = Plan::new(kind, pattern, 8, false);
        for count in [10, 100, 1000, 10_000, 100_000] {
            let name = format!("growth-{word}-8-little-{count}");
            rows.add(name, |name| plan.row(name, 0..count));
        }
    }
}

/// Beside rows without marks that are named the same.
fn marks(rows: &mut Rows<'_>) {
    for (word, kind) in [("range-7", Kind::Ranges), ("location-8", Kind::Locations)] {
        let plan = Plan::new(kind, Pattern::All(StartLength), 8, false);
        let name = format!("marks-{word}-8-little-1000");
        rows.add(name, |name| Row { task: Task::Marks, ..plan.row(name, 0..1000) });
    }
}

/// Raw entries by calls: with numbers and addresses, with numbers or addresses
/// alone, and with neither. Each yields a range.
fn raws(rows: &mut Rows<'_>) {
    let plans = [
        ("range-4", Kind::Ranges, OffsetPair, [8].as_slice()),
        ("range-6", Kind::Ranges, StartEnd, &[4, 8]),
        ("range-7", Kind::Ranges, StartLength, &[4, 8]),
        ("range-bare", Kind::Ranges, BarePair, &[4, 8]),
        ("location-4", Kind::Locations, OffsetPair, &[8]),
        ("location-5", Kind::Locations, Default, &[8]),
        ("location-7", Kind::Locations, StartEnd, &[4, 8]),
        ("location-8", Kind::Locations, StartLength, &[4, 8]),
        ("location-bare", Kind::Locations, BarePair, &[4, 8]),
        ("split-4-3", Kind::SplitLocations, StartLengthIndex, &[8]),
    ];
    for (word, kind, form, sizes) in plans {
        for &size in sizes {
            let mut plan = Plan::new(kind, Pattern::All(form), size, false);
            if kind == Kind::SplitLocations {
                plan.version = 4;
            }
            raw(rows, word, plan);
        }
    }
}

fn raw(rows: &mut Rows<'_>, word: &str, plan: Plan) {
    for count in [3, 1000] {
        let name = format!("{}raw-{word}-{}-little-{count}", plan.by(), plan.size);
        rows.add(name, |name| Row { task: Task::Raw, ..plan.row(name, 0..count) });
    }
}

/// Profile calls, beside rows of the ordinary ones that are named the same but for the
/// word.
fn profiles(rows: &mut Rows<'_>) {
    let plans = [
        ("range-4", Kind::Ranges, Pattern::All(OffsetPair), [4, 8].as_slice()),
        ("range-6", Kind::Ranges, Pattern::All(StartEnd), &[4, 8]),
        ("range-7", Kind::Ranges, Pattern::All(StartLength), &[4, 8]),
        ("range-bare", Kind::Ranges, Pattern::All(BarePair), &[4, 8]),
        ("range-bases", Kind::Ranges, Pattern::Bases, &[4, 8]),
        ("range-mixed", Kind::Ranges, Pattern::Mixed, &[8]),
        ("location-4", Kind::Locations, Pattern::All(OffsetPair), &[4, 8]),
        ("location-5", Kind::Locations, Pattern::All(Default), &[8]),
        ("location-8", Kind::Locations, Pattern::All(StartLength), &[4, 8]),
        ("location-mixed", Kind::Locations, Pattern::Mixed, &[8]),
    ];
    for (word, kind, pattern, sizes) in plans {
        sizes.iter().for_each(|&size| profile(rows, word, Plan::new(kind, pattern, size, false)));
    }
}

fn profile(rows: &mut Rows<'_>, word: &str, plan: Plan) {
    for count in [3, 1000] {
        let name = format!("{}profile-{word}-{}-little-{count}", plan.by(), plan.size);
        rows.add(name, |name| Row { task: Task::Profile, ..plan.row(name, 0..count) });
    }
}

/// By a table of kind numbers, beside rows without one that are named the same but for
/// the first word.
fn kinds(rows: &mut Rows<'_>) {
    let plan = |pattern| Plan { by_table: true, ..Plan::new(Kind::Ranges, pattern, 8, false) };
    for (word, pattern) in patterns(Kind::Ranges) {
        walk(rows, &word, plan(pattern));
    }
    for (word, form) in
        [("range-4", OffsetPair), ("range-7", StartLength), ("range-bare", BarePair)]
    {
        raw(rows, word, plan(Pattern::All(form)));
        profile(rows, word, plan(Pattern::All(form)));
    }
    sets(rows, true, &[32, 1024]);
    rows.add("kinds-load".into(), |name| Row {
        task: Task::Load,
        yields: 1,
        entries: 1,
        ..plan(Pattern::Mixed).row(name, 0..0)
    });
}

/// LEB128 numbers of so many bytes each, in shortest form.
fn numbers(rows: &mut Rows<'_>) {
    let plan = Plan::new(Kind::Ranges, Pattern::Mixed, 8, false);
    for width in [1, 2, 5] {
        rows.add(format!("uleb128-{width}-1000"), |name| {
            let mut writer =
                Writer { out: Vec::new(), kind: Kind::Ranges, version: 5, size: 8, big: false };
            let (least, below) = ((1 << (7 * (width - 1))) & !1, 1 << (7 * width));
            (0..1000).for_each(|index| writer.uleb128(least + spread(index) % (below - least)));
            let section = writer.out.leak();
            let counted = Row { yields: 1000, entries: 1000, ..plan.row(name, 0..0) };
            Row { task: Task::Numbers, section, offset: 0, ..counted }
        });
    }
}

/// A list, and addresses that are looked up in one reading.
pub struct Stack {
    pub row: Row,
    pub addresses: Vec<u64>,
}

/// Addresses in ascending order, spread over the ranges from 0 to `count`: half of them
/// are held by a range, and the others stand between two.
fn spread_over(count: u64, number: u64, begin: impl Fn(u64) -> u64, size: u8) -> Vec<u64> {
    let mut addresses: Vec<u64> = (0..number)
        .map(|at| {
            let index = (2 * at + 1) * count / (2 * number);
            let behind = begin(index) + STEP / 2;
            if at % 2 == 1 { begin(index) + at % span(index, size).1 } else { behind + at }
        })
        .collect();
    addresses.sort();
    addresses
}

/// Long lists in ascending order and one in no order, and short ones.
pub fn stacks(wanted: &dyn Fn(&str) -> bool) -> Vec<Stack> {
    let mut lists = Vec::new();
    for kind in [Kind::Ranges, Kind::Locations] {
        let [end, length] = if kind == Kind::Ranges { ["6", "7"] } else { ["7", "8"] };
        let forms = [("4", FarPair), (end, StartEnd), (length, StartLength), ("bare", BarePair)];
        for (word, form) in forms {
            for size in [4, 8] {
                lists.push((word, form, Plan::new(kind, Pattern::All(form), size, false)));
            }
        }
    }
    let by_table = |&(word, form, plan): &(&'static str, Form, Plan)| {
        let wanted = plan.kind == Kind::Ranges && plan.size == 8;
        wanted.then_some((word, form, Plan { by_table: true, ..plan }))
    };
    lists.extend(lists.iter().filter_map(by_table).collect::<Vec<_>>());
    let mut stacks = Vec::new();
    for (word, form, plan) in lists {
        let (kind, size) = (kind_word(plan.kind), plan.size);
        let begin = |index| match form {
            FarPair => BASE_ADDRESS + index * STEP,
            _ => span(index, size).0,
        };
        for (order, count) in [("", 1000), ("random-", 1000), ("", 3)] {
            if !order.is_empty() && (form != StartLength || size != 8) {
                continue;
            }
            for number in [1, 8, 64] {
                let by = plan.by();
                let name = format!("{by}stack-{order}{kind}-{word}-{size}-little-{count}-{number}");
                if !wanted(&name) {
                    continue;
                }
                let ascending = order.is_empty();
                let indexes = if ascending { (0..count).collect() } else { shuffled(count) };
                let row = plan.row(name, indexes.into_iter());
                let addresses = spread_over(count, number, begin, size);
                stacks.push(Stack { row, addresses });
            }
        }
    }
    stacks
}

pub fn rows(wanted: &dyn Fn(&str) -> bool) -> Vec<Row> {
    let mut rows = Rows { wanted, rows: Vec::new() };
    walks(&mut rows);
    lookups(&mut rows);
    defaults(&mut rows);
    sets(&mut rows, false, &[1, 4, 32, 33, 1024, 3000]);
    sheets(&mut rows);
    headers(&mut rows);
    growth(&mut rows);
    marks(&mut rows);
    raws(&mut rows);
    profiles(&mut rows);
    numbers(&mut rows);
    kinds(&mut rows);
    rows.rows
}
