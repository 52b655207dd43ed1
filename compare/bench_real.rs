//! All lists of the builds that `run-real` makes, read in one pass.
//!
//! `real_main.rs` writes the file `lists`: a line for each list, with the file
//! and the section that hold it, what it is read with, and what it comes to.

use crate::bench_gimli::{self, Lists, Order, refused};
use crate::bench_gimli::{RealCovering, RealPutting, RealSeeking, RealWalking, RealWriting};
use crate::bench_port::{self, Encoding};
use crate::bench_rows::{Kind, NOWHERE, Row, Task};
use crate::bench_sets::{self, Coverage, LONGEST, MOST, Runs, sum_of_bytes};
use crate::elf::{self, Elf};
use crate::{Run, Settings, fail, header, mark, measure, print};
use oracle::endianity::RunTimeEndian;
use std::collections::{BTreeMap, BTreeSet};
use std::hint::black_box;
use std::path::Path;

/// A list of a section.
#[derive(Clone, Copy)]
struct List {
    offset: u64,
    /// Raw entries, and yielded ranges.
    entries: u64,
    yields: u64,
    /// The begin of the middle range.
    middle: u64,
    refused: bool,
}

/// Lists that are read with the same: section, table, encoding, base address.
struct Unit {
    row: Row,
    lists: Vec<List>,
}

const OTHER: &str = "the file lists is of another run-real";

fn number(word: &str) -> u64 {
    word.parse().unwrap_or_else(|_| fail(OTHER))
}

/// The files of the builds by their paths, each read once.
type Files = BTreeMap<String, &'static Elf>;

fn file(path: &str, files: &mut Files) -> &'static Elf {
    *files.entry(path.to_string()).or_insert_with(|| {
        let elf = std::fs::read(path).ok().and_then(|bytes| elf::read(&bytes));
        Box::leak(Box::new(elf.unwrap_or_else(|| fail(&format!("no ELF file: {path}")))))
    })
}

fn row(shared: &str, files: &mut Files) -> Row {
    let words: Vec<&str> = shared.split('\t').collect();
    let [path, section, kind, table, version, size, dwarf64, base_address, table_base] = words[..]
    else {
        fail(OTHER)
    };
    let (elf, table) = (file(path, files), file(table, files));
    let bytes = |elf: &'static Elf, name: &str| elf.sections.get(name).map_or(&[][..], |all| all);
    Row {
        name: format!("{path} {section}"),
        task: Task::Walk,
        kind: match kind {
            "Ranges" => Kind::Ranges,
            "Locations" => Kind::Locations,
            _ => Kind::SplitLocations,
        },
        section: bytes(elf, section),
        offset: 0,
        table: bytes(table, ".debug_addr"),
        table_base: number(table_base),
        base_address: number(base_address),
        version: number(version) as u16,
        address_size: number(size) as u8,
        dwarf64: dwarf64 == "true",
        big_endian: elf.big_endian,
        yields: 0,
        entries: 0,
        tabled: None,
    }
}

/// The lists of a folder that `run-real` has filled.
fn units(folder: &str) -> Vec<Unit> {
    let path = Path::new(folder).join("lists");
    let text = std::fs::read_to_string(&path)
        .unwrap_or_else(|error| fail(&format!("{}: {error}", path.display())));
    let mut units: BTreeMap<&str, Vec<List>> = BTreeMap::new();
    for line in text.lines() {
        let words: Vec<&str> = line.rsplitn(6, '\t').collect();
        let [refused, middle, yields, entries, offset, shared] = words[..] else { fail(OTHER) };
        let [middle, yields, entries, offset] = [middle, yields, entries, offset].map(number);
        let list = List { offset, entries, yields, middle, refused: refused == "true" };
        units.entry(shared).or_default().push(list);
    }
    let mut files = Files::new();
    let unit = |(shared, lists): (&str, _)| Unit { row: row(shared, &mut files), lists };
    units.into_iter().map(unit).collect()
}

/// Where a list stands, and the address that is looked up in it.
#[derive(Clone, Copy)]
struct Place {
    offset: u64,
    address: u64,
}

struct Group<'a> {
    row: &'a Row,
    places: Vec<Place>,
}

/// What is read in one pass: range lists, then location lists.
struct Pass<'a> {
    ranges: Vec<Group<'a>>,
    locations: Vec<Group<'a>>,
    lists: u64,
    entries: u64,
}

impl Pass<'_> {
    fn new(units: &[Unit], reading: Reading, wanted: impl Fn(&Unit, &List) -> bool) -> Pass<'_> {
        let mut pass = Pass { ranges: Vec::new(), locations: Vec::new(), lists: 0, entries: 0 };
        for unit in units {
            let lists = unit.lists.iter().filter(|list| reading.reads(list) && wanted(unit, list));
            let places: Vec<Place> = lists
                .map(|list| {
                    pass.lists += 1;
                    pass.entries += list.entries;
                    Place { offset: list.offset, address: reading.address(list) }
                })
                .collect();
            let group = Group { row: &unit.row, places };
            match unit.row.kind {
                _ if group.places.is_empty() => {}
                Kind::Ranges => pass.ranges.push(group),
                _ => pass.locations.push(group),
            }
        }
        pass
    }
}

/// What is done with each list.
#[derive(Clone, Copy, PartialEq, Eq)]
enum Reading {
    Walk,
    Absent,
    Covered,
    Coverage,
    Runs,
    Canonical,
}

const READINGS: [(&str, Reading); 6] = [
    ("walk", Reading::Walk),
    ("lookup-absent", Reading::Absent),
    ("lookup-covered", Reading::Covered),
    ("coverage", Reading::Coverage),
    ("runs", Reading::Runs),
    ("canonical", Reading::Canonical),
];

impl Reading {
    /// Refused lists are never read, those that are too long have no coverage.
    fn reads(self, list: &List) -> bool {
        !list.refused
            && match self {
                Reading::Walk | Reading::Absent => true,
                Reading::Covered => list.yields > 0,
                Reading::Coverage | Reading::Runs | Reading::Canonical => {
                    list.yields <= MOST as u64
                }
            }
    }

    fn address(self, list: &List) -> u64 {
        if self == Reading::Covered { list.middle } else { NOWHERE }
    }
}

/// A pass over all groups, so many times, for one side; `C` is what it reads
/// lists with. It is a function of its own for every `once`.
#[inline(never)]
fn all<C>(groups: &[(C, &[Place])], passes: u64, mut once: impl FnMut(&C, Place) -> u64) -> u64 {
    repeat!(passes, {
        let mut sum = 0u64;
        for (with, places) in black_box(groups) {
            for &place in *places {
                sum = sum.rotate_left(1) ^ once(with, place);
            }
        }
        sum
    })
}

type Port<'a> = (&'a Row, Encoding);

fn port<'a>(groups: &'a [Group<'_>]) -> Vec<(Port<'a>, &'a [Place])> {
    let with = |row: &'a Row| (row, bench_port::encoding(row));
    groups.iter().map(|group| (with(group.row), &group.places[..])).collect()
}

fn gimli<'a, E: Order>(groups: &'a [Group<'_>]) -> Vec<(Lists<'a, E>, &'a [Place])> {
    groups.iter().map(|group| (Lists::new(group.row), &group.places[..])).collect()
}

fn port_walks<'a>(pass: &'a Pass<'_>) -> Run<'a> {
    let (ranges, locations) = (port(&pass.ranges), port(&pass.locations));
    Box::new(move |passes| {
        all(&ranges, passes, |(row, encoding), place| {
            bench_port::walk_ranges_once(row, encoding, place.offset)
        }) ^ all(&locations, passes, |(row, encoding), place| {
            bench_port::walk_locations_once(row, encoding, place.offset)
        })
    })
}

fn gimli_walks<'a, E: Order + 'a>(pass: &'a Pass<'_>) -> Run<'a> {
    let (ranges, locations) = (gimli::<E>(&pass.ranges), gimli::<E>(&pass.locations));
    Box::new(move |passes| {
        all(&ranges, passes, |lists, place| {
            bench_gimli::walk_ranges_once(lists, place.offset).unwrap_or_else(|e| refused(e))
        }) ^ all(&locations, passes, |lists, place| {
            bench_gimli::walk_locations_once(lists, place.offset).unwrap_or_else(|e| refused(e))
        })
    })
}

fn port_lookups<'a>(pass: &'a Pass<'_>) -> Run<'a> {
    let (ranges, locations) = (port(&pass.ranges), port(&pass.locations));
    Box::new(move |passes| {
        all(&ranges, passes, |(row, encoding), place| {
            bench_port::lookup_range_once(row, encoding, place.offset, place.address)
        }) ^ all(&locations, passes, |(row, encoding), place| {
            bench_port::lookup_location_once(row, encoding, place.offset, place.address)
        })
    })
}

fn gimli_lookups<'a, E: Order + 'a>(pass: &'a Pass<'_>) -> Run<'a> {
    let (ranges, locations) = (gimli::<E>(&pass.ranges), gimli::<E>(&pass.locations));
    Box::new(move |passes| {
        all(&ranges, passes, |lists, place| {
            bench_gimli::lookup_range_once(lists, place.offset, place.address)
        }) ^ all(&locations, passes, |lists, place| {
            bench_gimli::lookup_location_once(lists, place.offset, place.address)
        })
    })
}

/// With the last coverage made in the answer.
fn port_coverages<'a>(pass: &'a Pass<'_>) -> Run<'a> {
    let (ranges, locations) = (port(&pass.ranges), port(&pass.locations));
    let mut made = Coverage::new();
    Box::new(move |passes| {
        let sum = all(&ranges, passes, |(row, encoding), place| {
            bench_port::range_coverage_once(row, encoding, place.offset, &mut made);
            black_box(&made).n
        }) ^ all(&locations, passes, |(row, encoding), place| {
            bench_port::location_coverage_once(row, encoding, place.offset, &mut made);
            black_box(&made).n
        });
        sum ^ made.sum()
    })
}

/// Counts the calls; the sum of a coverage at the last, and else its length.
struct Last(u64);

impl Last {
    #[inline(always)]
    fn sum(&mut self, made: &Coverage) -> u64 {
        self.0 -= 1;
        if self.0 == 0 { made.n ^ made.sum() } else { made.n }
    }
}

fn gimli_coverages<'a, E: Order + 'a>(pass: &'a Pass<'_>) -> Run<'a> {
    let (ranges, locations) = (gimli::<E>(&pass.ranges), gimli::<E>(&pass.locations));
    let mut found = Vec::new();
    Box::new(move |passes| {
        let mut last = Last(passes * pass.lists);
        all(&ranges, passes, |lists, place| {
            let made = bench_sets::coverage_once(lists.open_ranges(place.offset), &mut found);
            last.sum(black_box(&made).as_ref().expect("a coverage"))
        }) ^ all(&locations, passes, |lists, place| {
            let made = bench_sets::coverage_once(lists.open_locations(place.offset), &mut found);
            last.sum(black_box(&made).as_ref().expect("a coverage"))
        })
    })
}

/// With the last runs in the answer.
fn port_runs<'a>(pass: &'a Pass<'_>) -> Run<'a> {
    let (ranges, locations) = (port(&pass.ranges), port(&pass.locations));
    let mut made = Runs::new();
    Box::new(move |passes| {
        let sum = all(&ranges, passes, |(row, encoding), place| {
            bench_port::range_runs_once(row, encoding, place.offset, &mut made);
            black_box(&made).n
        }) ^ all(&locations, passes, |(row, encoding), place| {
            bench_port::location_runs_once(row, encoding, place.offset, &mut made);
            black_box(&made).n
        });
        sum ^ made.sum()
    })
}

fn gimli_runs<'a, E: Order + 'a>(pass: &'a Pass<'_>) -> Run<'a> {
    let (ranges, locations) = (gimli::<E>(&pass.ranges), gimli::<E>(&pass.locations));
    let (mut found, mut made) = (Vec::new(), Runs::new());
    Box::new(move |passes| {
        let sum = all(&ranges, passes, |lists, place| {
            let walk = lists.open_ranges(place.offset);
            bench_sets::runs_once(walk, &mut found, &mut made).expect("runs");
            black_box(&made).n
        }) ^ all(&locations, passes, |lists, place| {
            let walk = lists.open_locations(place.offset);
            bench_sets::runs_once(walk, &mut found, &mut made).expect("runs");
            black_box(&made).n
        });
        sum ^ made.sum()
    })
}

/// With the last list written in the answer.
fn port_canonicals<'a>(pass: &'a Pass<'_>) -> Run<'a> {
    let (ranges, locations) = (port(&pass.ranges), port(&pass.locations));
    let (mut output, mut written) = (vec![0; LONGEST], 0);
    Box::new(move |passes| {
        let sum = all(&ranges, passes, |(row, encoding), place| {
            written = bench_port::range_canonical_once(row, encoding, place.offset, &mut output);
            black_box(&output);
            written
        }) ^ all(&locations, passes, |(row, encoding), place| {
            written = bench_port::location_canonical_once(row, encoding, place.offset, &mut output);
            black_box(&output);
            written
        });
        sum ^ sum_of_bytes(&output[..written as usize])
    })
}

fn gimli_canonicals<'a, E: Order + 'a>(pass: &'a Pass<'_>) -> Run<'a> {
    let (ranges, locations) = (gimli::<E>(&pass.ranges), gimli::<E>(&pass.locations));
    let (mut found, mut output, mut written) = (Vec::new(), vec![0; LONGEST], 0);
    Box::new(move |passes| {
        let sum = all(&ranges, passes, |lists, place| {
            let walk = lists.open_ranges(place.offset);
            let made = bench_sets::canonical_once(walk, &mut found, &mut output);
            black_box(&output);
            written = made.expect("a canonical list");
            written as u64
        }) ^ all(&locations, passes, |lists, place| {
            let walk = lists.open_locations(place.offset);
            let made = bench_sets::canonical_once(walk, &mut found, &mut output);
            black_box(&output);
            written = made.expect("a canonical list");
            written as u64
        });
        sum ^ sum_of_bytes(&output[..written])
    })
}

/// Port, gimli with one caller, gimli with several.
fn sides<'a>(reading: Reading, pass: &'a Pass<'_>) -> [Run<'a>; 3] {
    match reading {
        Reading::Walk => {
            [port_walks(pass), gimli_walks::<RealWalking>(pass), gimli_walks::<RunTimeEndian>(pass)]
        }
        Reading::Absent | Reading::Covered => [
            port_lookups(pass),
            gimli_lookups::<RealSeeking>(pass),
            gimli_lookups::<RunTimeEndian>(pass),
        ],
        Reading::Coverage => [
            port_coverages(pass),
            gimli_coverages::<RealCovering>(pass),
            gimli_coverages::<RunTimeEndian>(pass),
        ],
        Reading::Runs => {
            [port_runs(pass), gimli_runs::<RealPutting>(pass), gimli_runs::<RunTimeEndian>(pass)]
        }
        Reading::Canonical => [
            port_canonicals(pass),
            gimli_canonicals::<RealWriting>(pass),
            gimli_canonicals::<RunTimeEndian>(pass),
        ],
    }
}

/// All sides must answer the same for each list before anything is timed.
fn check(units: &[Unit]) {
    for unit in units {
        for &list in &unit.lists {
            let alone = [Unit { row: unit.row.clone(), lists: vec![list] }];
            for (word, reading) in READINGS {
                let pass = Pass::new(&alone, reading, |_, _| true);
                if pass.lists > 0 {
                    let sums = sides(reading, &pass).map(|mut run| run(1));
                    let same = sums[0] == sums[1] && sums[1] == sums[2];
                    assert!(same, "{word}, {} at {}: {sums:x?}", unit.row.name, list.offset);
                }
            }
        }
    }
}

/// Lists by the number of their ranges.
const CLASSES: [(&str, u64, u64); 6] = [
    ("of-0", 0, 0),
    ("of-1", 1, 1),
    ("of-2-to-4", 2, 4),
    ("of-5-to-16", 5, 16),
    ("of-17-to-32", 17, 32),
    ("of-more", 33, u64::MAX),
];

/// What a row reads: its name, and whether a list belongs to it.
type Wanted = (&'static str, Box<dyn Fn(&Unit, &List) -> bool>);

fn kinds() -> [Wanted; 3] {
    [
        ("ranges", Box::new(|unit, _| unit.row.kind == Kind::Ranges)),
        ("locations", Box::new(|unit, _| unit.row.kind != Kind::Ranges)),
        ("all", Box::new(|_, _| true)),
    ]
}

fn classes() -> [Wanted; 6] {
    CLASSES.map(|(word, least, most)| -> Wanted {
        (word, Box::new(move |_, list| (least..=most).contains(&list.yields)))
    })
}

/// Each row with its lists and its sides.
fn rows(units: &[Unit], mut row: impl FnMut(&str, Reading, &Pass, &mut [Run<'_>; 3])) {
    for wanted in [&kinds()[..], &classes()] {
        for (word, reading) in READINGS {
            for (name, wanted) in wanted {
                let pass = Pass::new(units, reading, wanted);
                if pass.lists > 0 {
                    row(&format!("{word}-{name}"), reading, &pass, &mut sides(reading, &pass));
                }
            }
        }
    }
}

fn percent(part: f64, whole: f64) -> f64 {
    100.0 * part / whole.max(1.0)
}

/// What was met, and how it spreads.
fn met(units: &[Unit]) {
    let folders = units.iter().filter_map(|unit| unit.row.name.rsplit_once('/'));
    let builds: BTreeSet<&str> = folders.map(|(folder, _)| folder).collect();
    let refused = units.iter().flat_map(|unit| &unit.lists).filter(|list| list.refused).count();
    let [ranges, locations, all] = kinds().map(|(_, wanted)| {
        let pass = Pass::new(units, Reading::Walk, wanted);
        (pass.lists, pass.entries)
    });
    let short = Pass::new(units, Reading::Coverage, |_, _| true).lists;
    println!(
        "{} builds: {} range lists with {} raw entries, {} location lists with {}; left out: \
         {refused} refused lists, and {} with more than {MOST} ranges of coverage and canonical list",
        builds.len(),
        ranges.0,
        ranges.1,
        locations.0,
        locations.1,
        all.0 - short
    );
    println!("{:>12} {:>8} {:>8} {:>12} {:>8}", "ranges", "lists", "share", "raw entries", "share");
    for (word, wanted) in classes() {
        let Pass { lists, entries, .. } = Pass::new(units, Reading::Walk, wanted);
        println!(
            "{word:>12} {lists:>8} {:>6.1} % {entries:>12} {:>6.1} %",
            percent(lists as f64, all.0 as f64),
            percent(entries as f64, all.1 as f64)
        );
    }
}

pub fn table(folder: &str, settings: &Settings) {
    let units = units(folder);
    check(&units);
    met(&units);
    println!("{} rounds of port, one, several", settings.rounds);
    header("ns for each list");
    let mut spent = Vec::new();
    rows(&units, |name, reading, pass, runs| {
        let measured = measure(name, pass.lists, runs, settings);
        print(&measured);
        if matches!(reading, Reading::Walk | Reading::Absent) {
            let lists = pass.lists as f64 / pass.entries.max(1) as f64;
            let [port, one, several] = measured.times.map(|time| time * lists);
            println!("{:44} {port:8.2} {one:8.2} {several:8.2}", "  for each raw entry");
        }
        spent.push((name.to_string(), measured.times[0] * pass.lists as f64));
    });
    println!("share of the port's time:");
    for (word, _) in READINGS {
        let of = |(name, _): &&(String, f64)| name.starts_with(&format!("{word}-of-"));
        let whole: f64 = spent.iter().filter(of).map(|(_, time)| time).sum();
        let share = |(name, time): &(String, f64)| {
            format!("{} {:.1} %", &name[word.len() + 1..], percent(*time, whole))
        };
        let shares: Vec<String> = spent.iter().filter(of).map(share).collect();
        println!("  {word:16} {}", shares.join(", "));
    }
}

/// As `marked` of bench.rs, each time for each list.
pub fn marked(folder: &str) {
    rows(&units(folder), |name, _, pass, runs| mark(name, pass.lists, runs));
}
