//! Compares the port with the oracle, and with what llvm-dwarfdump and readelf
//! print, on sections that compilers wrote. `run-real` makes the builds and
//! the dumps; this program is told of them by a file with a line for each
//! build: compiler, DWARF version, flavour, folder, `linked` or `objects`.
//! It prints a table, and exits with 1 on any difference. Beside that file it
//! writes another, `lists`, with a line for each list, for the benchmark.
//!
//!   real <file> [model]

#[allow(dead_code)]
mod added;
#[allow(dead_code)]
mod differ;
#[path = "real/dumps.rs"]
mod dumps;
#[path = "real/elf.rs"]
mod elf;
#[allow(dead_code)]
mod measure;
mod model;
#[path = "real/operations.rs"]
mod operations;
mod port;

use std::collections::{BTreeMap, BTreeSet};
use std::fmt::Debug;
use std::path::Path;

use added::Added;
use differ::{Met, Noted, Port};
use dumps::{Dumped, Shown, Unit};
use elf::Elf;
use generator::Random;
use measure::noted;
use oracle::oracle_api::{self as gimli, *};

/// A line of the table.
#[derive(Default)]
struct Row {
    lists: u64,
    entries: u64,
    calls: u64,
    /// Lists held against llvm-dwarfdump: raw entries, and ranges.
    dump_raw: u64,
    dump_ranges: u64,
    /// Lists held against readelf: places of entries, and ranges.
    readelf_places: u64,
    readelf_ranges: u64,
    /// Printed lists that a tool is known to read otherwise.
    left_out: u64,
    refused: u64,
    differences: u64,
    /// How often each form of a raw entry was met, and how many entries have a
    /// padded number.
    forms: BTreeMap<String, u64>,
    padded: u64,
    /// How many lists keep to the profile, are refused by the ordinary walk alone, or
    /// break the profile with each refusal.
    profile: BTreeMap<String, u64>,
    /// What the lists are read with, for the benchmark.
    listed: String,
}

impl Row {
    fn join(&mut self, other: &Row) {
        self.lists += other.lists;
        self.entries += other.entries;
        self.calls += other.calls;
        self.dump_raw += other.dump_raw;
        self.dump_ranges += other.dump_ranges;
        self.readelf_places += other.readelf_places;
        self.readelf_ranges += other.readelf_ranges;
        self.left_out += other.left_out;
        self.refused += other.refused;
        self.differences += other.differences;
        for (form, count) in &other.forms {
            *self.forms.entry(form.clone()).or_default() += count;
        }
        for (how, count) in &other.profile {
            *self.profile.entry(how.clone()).or_default() += count;
        }
        self.padded += other.padded;
        self.listed.push_str(&other.listed);
    }

    fn print(&self, build: &str, section: &str) {
        let counts = [
            self.lists,
            self.entries,
            self.calls,
            self.dump_raw,
            self.dump_ranges,
            self.readelf_places,
            self.readelf_ranges,
            self.left_out,
            self.refused,
            self.differences,
        ];
        print!("{build:<52} {section:<19}");
        counts.iter().for_each(|count| print!(" {count:>7}"));
        println!();
    }

    /// One compared call.
    fn same<T: PartialEq + Debug>(&mut self, call: &str, oracle: &T, port: &T) -> bool {
        self.calls += 1;
        self.equal(call, oracle, port)
    }

    fn equal<T: PartialEq + Debug>(&mut self, what: &str, one: &T, other: &T) -> bool {
        if one == other {
            return true;
        }
        self.differences += 1;
        if self.differences <= SHOWN {
            println!("{what}: {one:x?}, port {other:x?}");
        }
        false
    }
}

/// What the port answered about a list.
#[derive(Default)]
struct Walked {
    raw: Vec<(u64, Raw)>,
    /// The place before the call that ended the walk.
    end: u64,
    yielded: Vec<Yielded>,
    refused: bool,
    /// A base address at or above the tombstone bound was met.
    dead: bool,
}

impl Walked {
    /// Whether what the list yields depends on an address table.
    fn by_index(&self) -> bool {
        let index =
            |form| matches!(form, Form::BaseIndex | Form::StartEndIndex | Form::StartLengthIndex);
        self.raw.iter().any(|&(_, raw)| index(raw.form))
    }

    /// Whether llvm-dwarfdump loses its way: at address size 2 it takes a base
    /// selection up to version 4 for a pair.
    fn selects_small(&self, context: Context) -> bool {
        let small = context.version <= 4 && context.address_size == 2;
        small && self.raw.iter().any(|(_, raw)| raw.form == Form::Base)
    }

    /// Whether an offset pair stands before any base of the list's own.
    fn by_unit(&self) -> bool {
        let own = |form| matches!(form, Form::Base | Form::BaseIndex);
        let before = self.raw.iter().take_while(|(_, raw)| !own(raw.form));
        before.into_iter().any(|(_, raw)| raw.form == Form::OffsetPair)
    }
}

/// How many differences of a section are printed.
const SHOWN: u64 = 3;

/// Calls after the first end.
const ENDS: u32 = 3;

/// `next` to the end, held against the oracle.
fn walk(port: &impl Port, list: &List, row: &mut Row, walked: &mut Walked) {
    let (opened, got) = (Walk::open(list), port.open(list));
    let (mut oracle, mut state) = match (opened, got) {
        (Ok(oracle), Ok(state)) => (oracle, state),
        (opened, got) => {
            row.same("open", &opened.map(|mut walk| walk.state()), &got);
            walked.refused = true;
            return;
        }
    };
    row.same("open", &oracle.state(), &state);
    let mut ends = 0;
    while ends < ENDS {
        let answer = oracle.next();
        let (got, after) = port.next(list, state);
        if !row.same("next", &(answer, oracle.state()), &(got, after)) {
            return;
        }
        state = after;
        match got {
            Answer::Entry(entry) => walked.yielded.push(entry),
            Answer::End => ends += 1,
            Answer::Refused(_) => walked.refused = true,
        }
    }
}

/// `next_raw` and `convert_raw` to the end, held against the oracle.
fn walk_raw(port: &impl Port, list: &List, row: &mut Row, walked: &mut Walked) {
    let (Ok(mut oracle), Ok(mut state)) = (Walk::open(list), port.open(list)) else { return };
    let mut ends = 0;
    while ends < ENDS {
        let answer = oracle.next_raw().map(|entry| noted(list, state.place, entry));
        let (got, after) = port.next_raw(list, state);
        if !row.same("next_raw", &(answer, oracle.state()), &(got, after)) {
            return;
        }
        if ends == 0 {
            walked.end = state.place;
        }
        match got {
            Answer::Entry(Noted { entry, padded }) => {
                walked.raw.push((state.place, entry));
                row.padded += u64::from(padded);
                let converted = oracle.convert_raw(entry);
                let (got, after) = port.convert_raw(list, after, entry);
                row.same("convert_raw", &(converted, oracle.state()), &(got, after));
                walked.dead |= after.base_address >= gimli::min_tombstone(list.address_size);
                state = after;
                continue;
            }
            Answer::End => ends += 1,
            Answer::Refused(_) => walked.refused = true,
        }
        state = after;
    }
}

/// Profile calls to the end, held against the oracle.
fn walk_in_profile(port: &impl Port, list: &List, row: &mut Row) {
    let (Ok(mut oracle), Ok(mut state)) = (Walk::open(list), port.open(list)) else { return };
    let (mut ends, mut how) = (0, "keeps to the profile".into());
    while ends < ENDS {
        let due = (oracle.next_in_profile(), oracle.state());
        if !row.same("next_in_profile", &due, &port.next_in_profile(list, state)) {
            return;
        }
        match due.0 {
            Answer::Refused(Refusal { number: number @ 15..=17, .. }) => {
                how = format!("breaks it with {number}");
            }
            Answer::Refused(_) => how = "is refused for another reason".into(),
            Answer::End => ends += 1,
            Answer::Entry(_) => {}
        }
        state = due.1;
    }
    let how = format!("{} {how}", differ::kind_and_version(list));
    *row.profile.entry(how).or_default() += 1;
}

/// What a list is read with, apart from its section and its start.
#[derive(Debug, Clone, Copy, PartialEq, Eq, PartialOrd, Ord)]
struct Context {
    version: u16,
    address_size: u8,
    dwarf64: bool,
    base_address: u64,
    table_base: u64,
}

/// One section of one file, with all that is compared about it.
struct Section<'a> {
    name: &'a str,
    kind: Kind,
    bytes: &'a [u8],
    table: &'a [u8],
    big_endian: bool,
    row: Row,
    met: BTreeMap<(u64, Context), Walked>,
}

impl<'a> Section<'a> {
    fn list(&self, start: u64, context: Context) -> List<'a> {
        List {
            kind: self.kind,
            old: self.bytes,
            new: self.bytes,
            offset: start,
            version: context.version,
            address_size: context.address_size,
            dwarf64: context.dwarf64,
            big_endian: self.big_endian,
            base_address: context.base_address,
            table: self.table,
            table_base: context.table_base,
        }
    }

    /// The walk of a list, compared with the oracle's when it is first met.
    fn walked(&mut self, port: &impl Added, start: u64, context: Context) -> &Walked {
        if !self.met.contains_key(&(start, context)) {
            let list = self.list(start, context);
            let mut walked = Walked::default();
            let before = self.row.differences;
            walk(port, &list, &mut self.row, &mut walked);
            walk_raw(port, &list, &mut self.row, &mut walked);
            walk_in_profile(port, &list, &mut self.row);
            self.lookups(port, &list, &walked);
            self.added(port, &list);
            if self.row.differences > before && before < SHOWN {
                println!("  in {} at {start:x}, {context:x?}", self.name);
            }
            self.row.lists += 1;
            self.row.entries += walked.raw.len() as u64;
            for (_, raw) in &walked.raw {
                let form = format!("{} {:?}", differ::kind_and_version(&list), raw.form);
                *self.row.forms.entry(form).or_default() += 1;
            }
            self.row.refused += u64::from(walked.refused);
            self.met.insert((start, context), walked);
        }
        &self.met[&(start, context)]
    }

    /// Coverage, sheet and canonical list, beside the plain version.
    fn added(&mut self, port: &impl Added, list: &List) {
        self.compared(|met| added::list(port, list, &mut Random::new(list.offset), false, met));
    }

    fn compared(&mut self, compare: impl FnOnce(&mut Met) -> Result<(), String>) {
        let mut met = Met::default();
        let answer = compare(&mut met);
        self.row.calls += met.calls;
        if let Err(error) = answer {
            self.row.differences += 1;
            println!("{error}");
        }
    }

    /// The bounds of each range that is yielded, looked up one by one; then with 0 and
    /// 2^64 - 1 as many in one reading as may be.
    fn lookups(&mut self, port: &impl Port, list: &List, walked: &Walked) {
        let mut borders = vec![0, u64::MAX];
        for entry in &walked.yielded {
            for address in [entry.begin, entry.end - 1, entry.end] {
                let oracle = gimli::lookup(list, address);
                self.row.same("lookup", &oracle, &port.lookup(list, address));
                borders.push(address);
            }
        }
        borders.sort();
        for stack in borders.chunks(differ::MOST_ADDRESSES) {
            self.compared(|met| differ::stack(port, list, stack, list.offset, met));
        }
    }

    /// Walks list after list from a place up to another.
    fn through(&mut self, port: &impl Added, from: u64, to: u64, context: Context) {
        let mut start = from;
        while start < to {
            let old_pairs = context.version <= 4 && self.kind != Kind::SplitLocations;
            let mark = if old_pairs { 2 * u64::from(context.address_size) } else { 1 };
            let walked = self.walked(port, start, context);
            if walked.refused || walked.end < start {
                return;
            }
            start = walked.end + mark;
        }
    }

    /// Headers, offset tables and all lists behind them, from version 5 on.
    fn tables(&mut self, port: &impl Added, context: Context) {
        let mut at = 0;
        while at < self.bytes.len() {
            let rest = &self.bytes[at..];
            let header = gimli::lists_header(rest, self.big_endian);
            let got = port.lists_header(rest, self.big_endian);
            self.row.same("lists header", &header, &got);
            let Ok(header) = header else { return };
            let context = Context {
                version: header.version,
                address_size: header.address_size,
                dwarf64: header.dwarf64,
                ..context
            };
            let base = (at + usize::from(header.size)) as u64;
            self.offsets(port, base, header, context);
            let word = if header.dwarf64 { 8 } else { 4 };
            let end = at as u64 + header.rest.offset + header.rest.length;
            self.through(port, base + word * u64::from(header.entry_count), end, context);
            at = end as usize;
        }
    }

    fn offsets(&mut self, port: &impl Added, base: u64, header: Lists, context: Context) {
        for index in 0..=u64::from(header.entry_count) {
            let (bytes, big, wide) = (self.bytes, self.big_endian, header.dwarf64);
            let oracle = gimli::get_offset(self.kind, bytes, big, wide, base, index);
            let got = port.get_offset(self.kind, bytes, big, wide, base, index);
            let oracle = match oracle {
                OffsetAnswer::Offset(offset) => Ok(offset),
                OffsetAnswer::Refused(refusal) => Err(refusal),
                OffsetAnswer::SumTooLarge => Err(Refusal { number: 9, value: 0 }),
            };
            self.row.same("get_offset", &oracle, &got);
            if let (Ok(start), true) = (oracle, index < u64::from(header.entry_count)) {
                self.walked(port, start, context);
            }
        }
    }

    /// Whether an expression's bytes fit a dump's text.
    fn expression_fits(&self, shown: &Shown, place: Option<Place>, context: Context) -> bool {
        let Some(place) = place else { return true };
        if shown.text.is_empty() {
            return true;
        }
        let bytes = &self.bytes[place.offset as usize..][..place.length as usize];
        operations::fits(&shown.text, bytes, context.address_size, context.dwarf64) != Some(false)
    }

    /// Whether a list's raw entries are those that llvm-dwarfdump prints.
    fn raw_fits(&self, dumped: &Dumped, walked: &Walked, context: Context) -> bool {
        let top = u64::MAX >> (64 - 8 * u32::from(context.address_size));
        let one = |shown: &Shown, &(place, raw): &(u64, Raw)| {
            let form = shown.form.unwrap_or(match shown.numbers[..] {
                [first, _] if first == top => Form::Base,
                _ => Form::BarePair,
            });
            let numbers = match (raw.form, shown.form) {
                (Form::Base, None) => vec![top, raw.first],
                (Form::Base | Form::BaseIndex, _) => vec![raw.first],
                (Form::Default, _) => vec![],
                _ => vec![raw.first, raw.second],
            };
            form == raw.form
                && numbers == shown.numbers
                && shown.place.is_none_or(|shown| shown == place)
                && self.expression_fits(shown, raw.expression, context)
        };
        dumped.entries.len() == walked.raw.len()
            && dumped.entries.iter().zip(&walked.raw).all(|(shown, raw)| one(shown, raw))
            && dumped.end.is_none_or(|end| end == walked.end)
    }

    /// Whether the yielded ranges are those that a dump prints, less those that
    /// are skipped.
    fn ranges_fit(&self, dumped: &Dumped, walked: &Walked, context: Context) -> bool {
        let bound = gimli::min_tombstone(context.address_size);
        let shown: Vec<&Shown> =
            dumped.entries.iter().filter(|shown| yields(shown, bound)).collect();
        shown.len() == walked.yielded.len()
            && shown.iter().zip(&walked.yielded).all(|(shown, entry)| {
                shown.range == Some((entry.begin, entry.end))
                    && self.expression_fits(shown, entry.expression, context)
            })
    }

    /// Holds a list against llvm-dwarfdump: a list is shown as raw entries or
    /// as ranges.
    fn against_dump(&mut self, port: &impl Added, dumped: &Dumped, context: Context) {
        self.walked(port, dumped.start, context);
        let walked = &self.met[&(dumped.start, context)];
        if walked.refused {
            return;
        }
        let ranges = dumped.entries.iter().any(|shown| shown.range.is_some())
            || dumped.entries.is_empty() && !walked.raw.is_empty();
        // Below a dead base llvm-dwarfdump's sums wrap to small addresses.
        if walked.dead && ranges || walked.selects_small(context) {
            self.row.left_out += 1;
            return;
        }
        let fits = if ranges {
            self.row.dump_ranges += 1;
            self.ranges_fit(dumped, walked, context)
        } else {
            self.row.dump_raw += 1;
            self.raw_fits(dumped, walked, context)
        };
        if !fits {
            self.differs("llvm-dwarfdump", dumped, context);
        }
    }

    /// Holds a list against readelf: the places of its entries, and its ranges
    /// where it finds them. It loses its way at a dead base, does not always
    /// find the address table, and shows the offset pairs of version 5 without
    /// their unit's base address. Ranges need the unit to be known.
    fn against_readelf(
        &mut self,
        port: &impl Added,
        dumped: &Dumped,
        context: Context,
        unit: bool,
    ) {
        self.walked(port, dumped.start, context);
        let walked = &self.met[&(dumped.start, context)];
        if walked.refused {
            return;
        }
        if walked.dead {
            self.row.left_out += 1;
            return;
        }
        let places = dumped.entries.len() == walked.raw.len()
            && dumped.end.is_none_or(|end| end == walked.end)
            && dumped
                .entries
                .iter()
                .zip(&walked.raw)
                .all(|(shown, &(place, _))| shown.place.is_none_or(|shown| shown == place));
        self.row.readelf_places += 1;
        let known = unit && !walked.by_index() && !(walked.by_unit() && context.base_address != 0);
        self.row.readelf_ranges += u64::from(known);
        if !places || known && !self.ranges_fit(dumped, walked, context) {
            self.differs("readelf", dumped, context);
        }
    }

    fn differs(&mut self, tool: &str, dumped: &Dumped, context: Context) {
        self.row.differences += 1;
        let walked = &self.met[&(dumped.start, context)];
        if self.row.differences <= SHOWN {
            println!("{}: {tool} {dumped:x?}", self.name);
            println!("  port {:x?} {:x?}", walked.raw, walked.yielded);
        }
    }
}

/// A shown range that isn't skipped.
fn yields(shown: &Shown, bound: u64) -> bool {
    shown.range.is_some_and(|(begin, end)| begin < end && begin < bound)
}

/// A file, and what the dumps say about it.
struct File {
    name: String,
    path: String,
    elf: Elf,
    units: Vec<Unit>,
    /// llvm-dwarfdump's lists, and readelf's; empty without the tool.
    dump: String,
    readelf: String,
}

fn text(path: &Path, end: &str) -> String {
    let path = format!("{}{end}", path.display());
    String::from_utf8_lossy(&std::fs::read(path).unwrap_or_default()).into_owned()
}

fn file(path: &Path) -> Option<File> {
    let elf = elf::read(&std::fs::read(path).ok()?)?;
    Some(File {
        name: path.file_name()?.to_string_lossy().into_owned(),
        path: path.display().to_string(),
        elf,
        units: dumps::units(&text(path, ".info")),
        dump: text(path, ".lists"),
        readelf: text(path, ".readelf"),
    })
}

/// A build: a linked file with its split files, or objects with theirs.
struct Build {
    name: String,
    linked: bool,
    files: Vec<File>,
}

fn build(line: &str) -> Option<Build> {
    let words: Vec<&str> = line.split('\t').collect();
    let [compiler, version, flavour, folder, linked] = words[..] else { return None };
    let paths = std::fs::read_dir(folder).ok()?.filter_map(|entry| Some(entry.ok()?.path()));
    let mut paths: Vec<_> = paths.collect();
    paths.sort();
    let linked = linked == "linked";
    let wanted = |path: &&std::path::PathBuf| match path.extension() {
        Some(end) => end == "dwo" || end == "o" && !linked,
        None => linked,
    };
    let files: Vec<File> = paths.iter().filter(wanted).filter_map(|path| file(path)).collect();
    let order = files.iter().any(|file| file.elf.big_endian);
    let order = if order { "big" } else { "little" };
    let name = format!("{compiler:<26} {version:<2} {flavour:<14} {order:<6} ");
    Some(Build { name, linked, files })
}

const SECTIONS: [(&str, Kind); 7] = [
    (".debug_ranges", Kind::Ranges),
    (".debug_rnglists", Kind::Ranges),
    (".debug_rnglists.dwo", Kind::Ranges),
    (".debug_loc", Kind::Locations),
    (".debug_loclists", Kind::Locations),
    (".debug_loc.dwo", Kind::SplitLocations),
    (".debug_loclists.dwo", Kind::SplitLocations),
];

fn is_new(section: &str) -> bool {
    section.contains("lists")
}

impl Build {
    /// The units with a skeleton's say: the file that the lists of a split unit
    /// are read with holds the address table and the base address.
    fn skeleton(&self, file: &File) -> Option<(&File, &Unit)> {
        let named = |unit: &&Unit| {
            unit.dwo_name.as_ref().is_some_and(|name| name.rsplit('/').next() == Some(&file.name))
        };
        let mains = self.files.iter().filter(|file| !file.name.ends_with(".dwo"));
        mains.into_iter().find_map(|main| Some((main, main.units.iter().find(named)?)))
    }

    /// A section with all lists that the dumps, the offset tables and a walk
    /// through it know.
    fn section(&self, port: &impl Added, file: &File, name: &str, kind: Kind) -> Option<Row> {
        let bytes = file.elf.sections.get(name).filter(|bytes| !bytes.is_empty())?;
        let split = file.name.ends_with(".dwo");
        let skeleton = if split { self.skeleton(file) } else { None };
        let main = skeleton.map_or(file, |(main, _)| main);
        let table = main.elf.sections.get(".debug_addr").map_or(&[][..], |table| table);
        let big_endian = file.elf.big_endian;
        let met = BTreeMap::new();
        let row = Row::default();
        let mut section = Section { name, kind, bytes, table, big_endian, row, met };
        let contexts = self.contexts(file, skeleton.map(|(_, unit)| unit), is_new(name));

        // Without a unit, the least that a list is read with.
        let plain = contexts.iter().next().copied().unwrap_or(Context {
            version: if is_new(name) { 5 } else { 4 },
            address_size: file.elf.address_size,
            dwarf64: false,
            base_address: 0,
            table_base: 0,
        });
        let starts = self.starts(port, file, name, &mut section, skeleton.map(|(_, unit)| unit));
        if is_new(name) {
            section.tables(port, plain);
        } else {
            section.through(port, 0, bytes.len() as u64, plain);
        }
        if self.linked || split {
            for dumped in dumps::lists(&file.dump, name) {
                section.against_dump(port, &dumped, plain);
            }
            for dumped in dumps::readelf(&file.readelf, name) {
                // Only the unit that points to a list gives it a base address.
                for &context in starts.get(&dumped.start).into_iter().flatten() {
                    section.against_readelf(port, &dumped, context, true);
                }
                if file.units.is_empty() {
                    section.against_readelf(port, &dumped, plain, false);
                }
            }
        }
        // What lies between lists is read, too, by a walk through the section;
        // units tell it from lists.
        let pointed = |start: &u64, context: &Context| {
            starts.get(start).is_some_and(|contexts| contexts.contains(context))
        };
        for (&(start, context), walked) in &section.met {
            if !file.units.is_empty() && !pointed(&start, &context) {
                continue;
            }
            let line = listed(&file.path, name, kind, &main.path, context, start, walked);
            section.row.listed.push_str(&line);
        }
        Some(section.row)
    }

    fn contexts(&self, file: &File, skeleton: Option<&Unit>, new: bool) -> BTreeSet<Context> {
        let right = |unit: &&Unit| (unit.version >= 5) == new;
        file.units.iter().filter(right).map(|unit| context(unit, skeleton)).collect()
    }

    /// Every list that an attribute points to, with what its unit reads it
    /// with; held against what the dump prints there.
    fn starts(
        &self,
        port: &impl Added,
        file: &File,
        name: &str,
        section: &mut Section,
        skeleton: Option<&Unit>,
    ) -> BTreeMap<u64, BTreeSet<Context>> {
        let mut starts: BTreeMap<u64, BTreeSet<Context>> = BTreeMap::new();
        let split = file.name.ends_with(".dwo");
        for unit in file.units.iter().filter(|unit| (unit.version >= 5) == is_new(name)) {
            let context = context(unit, skeleton);
            let ranges = section.kind == Kind::Ranges;
            for pointed in unit.lists.iter().filter(|pointed| pointed.ranges == ranges) {
                starts.entry(pointed.list.start).or_default().insert(context);
                // Addresses of split range lists are not found by the dump.
                if split && ranges || !split && !self.linked {
                    section.walked(port, pointed.list.start, context);
                } else {
                    section.against_dump(port, &pointed.list, context);
                }
            }
        }
        // Split units up to version 4 point into the linked file's section.
        if name == ".debug_ranges" && !split {
            for dwo in self.files.iter().filter(|file| file.name.ends_with(".dwo")) {
                let Some((main, skeleton)) = self.skeleton(dwo) else { continue };
                if main.name != file.name {
                    continue;
                }
                for unit in dwo.units.iter().filter(|unit| unit.version <= 4) {
                    let context = context(unit, Some(skeleton));
                    for pointed in unit.lists.iter().filter(|pointed| pointed.ranges) {
                        let start = skeleton.ranges_base + pointed.list.start;
                        starts.entry(start).or_default().insert(context);
                        section.walked(port, start, context);
                    }
                }
            }
        }
        starts
    }

    fn run(&self, port: &impl Added) -> Row {
        let mut all = Row::default();
        for (name, kind) in SECTIONS {
            let mut row = Row::default();
            let rows = self.files.iter().filter_map(|file| self.section(port, file, name, kind));
            rows.for_each(|one| row.join(&one));
            if row.lists > 0 {
                row.print(&self.name, name);
                all.join(&row);
            }
        }
        let mut row = Row::default();
        self.files.iter().for_each(|file| addresses(port, file, self.linked, &mut row));
        if row.lists > 0 {
            row.print(&self.name, ".debug_addr");
            all.join(&row);
        }
        all
    }
}

fn context(unit: &Unit, skeleton: Option<&Unit>) -> Context {
    let main = skeleton.unwrap_or(unit);
    Context {
        version: unit.version,
        address_size: unit.address_size,
        dwarf64: unit.dwarf64,
        base_address: main.low_pc,
        table_base: main.addr_base.or(unit.addr_base).unwrap_or(0),
    }
}

/// A list as `bench_real.rs` reads it: what it shares with others, its start,
/// its raw entries, its ranges, the begin of the middle one, and whether it is
/// refused.
fn listed(
    file: &str,
    section: &str,
    kind: Kind,
    table: &str,
    context: Context,
    start: u64,
    walked: &Walked,
) -> String {
    let Context { version, address_size, dwarf64, base_address, table_base } = context;
    let (entries, ranges) = (walked.raw.len(), walked.yielded.len());
    let middle = walked.yielded.get(ranges / 2).map_or(0, |entry| entry.begin);
    format!(
        "{file}\t{section}\t{kind:?}\t{table}\t{version}\t{address_size}\t{dwarf64}\t\
         {base_address}\t{table_base}\t{start}\t{entries}\t{ranges}\t{middle}\t{}\n",
        walked.refused
    )
}

/// Address tables: with a header from version 5 on, else from each base.
fn addresses(port: &impl Port, file: &File, linked: bool, row: &mut Row) {
    let Some(section) = file.elf.sections.get(".debug_addr").filter(|bytes| !bytes.is_empty())
    else {
        return;
    };
    let big = file.elf.big_endian;
    let mut got = Vec::new();
    if file.units.iter().any(|unit| unit.version >= 5) {
        tables(port, section, big, row, &mut got);
    } else {
        let size = file.units.first().map_or(file.elf.address_size, |unit| unit.address_size);
        row.lists += 1;
        for index in 0..=(section.len() / usize::from(size)) as u64 {
            let oracle = gimli::get_address(section, big, size, 0, index);
            let answer = port.get_address(section, big, size, 0, index);
            row.same("get_address", &oracle, &answer);
            got.extend(answer.ok());
        }
        row.entries += got.len() as u64;
    }
    if linked && !file.dump.is_empty() {
        row.dump_ranges += 1;
        row.equal(".debug_addr of llvm-dwarfdump", &dumps::addresses(&file.dump), &got);
    }
}

fn tables(port: &impl Port, section: &[u8], big: bool, row: &mut Row, got: &mut Vec<u64>) {
    let mut oracle = Tables::open(section, big);
    let mut at = 0;
    loop {
        let answer = oracle.next();
        let (header, after) = port.next_table(section, big, at);
        at = after;
        let (table, mut entries) = match answer {
            Answer::Entry((table, entries)) => (Answer::Entry(table), Some(entries)),
            Answer::End => (Answer::End, None),
            Answer::Refused(refusal) => (Answer::Refused(refusal), None),
        };
        let same = row.same("table header", &(table, oracle.place()), &(header, after));
        let (Answer::Entry(table), Some(entries), true) = (table, &mut entries, same) else {
            return;
        };
        row.lists += 1;
        let (size, mut rest) = (table.address_size, table.entries);
        for index in 0.. {
            let answer = entries.next();
            let (address, left) = port.next_entry(section, big, size, rest);
            rest = left;
            row.same("table entry", &(answer, entries.left()), &(address, left.length));
            let base = table.entries.offset;
            let by_index = gimli::get_address(section, big, size, base, index);
            row.same("get_address", &by_index, &port.get_address(section, big, size, base, index));
            let (Answer::Entry(address), Answer::Entry(_)) = (address, answer) else { break };
            row.entries += 1;
            got.push(address);
        }
    }
}

fn run(port: &impl Added, builds: &str) -> Row {
    print!("{:<26} {:<2} {:<14} {:<6} ", "compiler", "v", "flavour", "order");
    print!(" {:<19}", "section");
    for head in
        ["lists", "entries", "calls", "raw", "ranges", "places", "ranges", "left", "refused"]
    {
        print!(" {head:>7}");
    }
    println!(" {:>7}", "differ");
    let (mut all, mut count) = (Row::default(), 0);
    for line in builds.lines() {
        let Some(build) = build(line) else {
            println!("no such build: {line}");
            all.differences += 1;
            continue;
        };
        count += 1;
        all.join(&build.run(port));
    }
    all.print(&format!("{count} builds"), "");
    for (form, count) in &all.forms {
        println!("{count:>12} {form}");
    }
    println!("{:>12} with a padded number", all.padded);
    for (how, count) in &all.profile {
        println!("{count:>12} {how}");
    }
    println!(
        "raw, ranges: lists held against llvm-dwarfdump's entries and ranges; places, ranges: \
         against readelf's; left: printed lists that the tool is known to read otherwise; \
         refused: lists that are refused by oracle and port alike"
    );
    all
}

fn main() {
    let words: Vec<String> = std::env::args().skip(1).collect();
    let path = words.first().expect("the file that names the builds");
    let builds = std::fs::read_to_string(path).expect("the file that names the builds");
    let model = words.iter().any(|word| word == "model");
    let all = if model { run(&model::Model, &builds) } else { run(&port::Ffi, &builds) };
    std::fs::write(Path::new(path).with_file_name("lists"), &all.listed).expect("a file for lists");
    println!("{} differences", all.differences);
    if all.differences > 0 {
        std::process::exit(1);
    }
}
