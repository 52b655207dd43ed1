//! Compares the port with the oracle: every short list, headers of address
//! tables with every size and at places of every remainder, then the cases of as
//! many seeds as are asked for, then for each of them a list that is walked with
//! marks, and a location list with default locations in which addresses are looked
//! up, then a case built for coverage, sheets and canonical lists for every
//! twentieth of them. Then comes padding: every short string as a number and as
//! the operands of an entry, a number for each seed, and a list for every fourth
//! of them. Then comes address size 3: every short list, and for every fourth of
//! the seeds a case, a list that gimli reads up to an address, and one that it
//! reads with size 4. Then come tables of kind numbers: loaded ones, among them
//! every change of a byte of the fixed table; every short list by some; for each
//! seed its cases about range lists by the fixed table, and a list by any; bare
//! pairs by any table for every fourth, and a list of many ranges for every
//! twentieth. Then come lookups of many addresses in one reading: every short list,
//! by tables and without, and for each seed a list, and one by a table. Last comes the
//! profile: every short list, by tables and without, and for each seed a list, one on
//! whose walk profile calls and others take turns, and one by a table. A difference is
//! printed, the last line has their number, and the exit status is 1 where there are
//! any.
//!
//!   differ [seeds [first seed]] [all] [model] [parts=text]
//!
//! With `all`, every list or string of up to three bytes, else up to two. With
//! `model`, the model of the scope stands in for the port, to try the comparison.
//! With `parts=`, only the parts whose names contain the text.

mod added;
mod built;
mod defaults;
mod differ;
mod kinds;
mod marks;
mod measure;
mod model;
mod padded;
mod port;
mod profile;
mod stacks;
mod three;

use added::{Added, Tabled};
use differ::Met;
use generator::{READ, Random};
use oracle::oracle_api::{self as gimli, Kind};
use std::sync::atomic::{AtomicU64, Ordering};
use std::sync::{Mutex, OnceLock};
use std::time::Instant;

/// Runs `one` for every number below `count`, on all processors.
fn spread(count: u64, one: impl Fn(u64, &mut Met) -> Result<(), String> + Sync) -> Met {
    let threads = std::thread::available_parallelism().map_or(1, |n| n.get() as u64);
    let (total, failed) = (Mutex::new(Met::default()), AtomicU64::new(0));
    std::thread::scope(|scope| {
        for thread in 0..threads {
            let (total, failed, one) = (&total, &failed, &one);
            scope.spawn(move || {
                let mut met = Met::default();
                for number in (thread..count).step_by(threads as usize) {
                    if let Err(error) = one(number, &mut met) {
                        println!("{error}");
                        failed.fetch_add(1, Ordering::Relaxed);
                    }
                    if failed.load(Ordering::Relaxed) > 0 {
                        break;
                    }
                }
                total.lock().unwrap().join(met);
            });
        }
    });
    differences(failed.into_inner());
    total.into_inner().unwrap()
}

/// Ends the program where there are differences, whose number is the last line.
fn differences(number: u64) {
    if number > 0 {
        println!("{number} differences; what follows them was not compared");
        std::process::exit(1);
    }
}

/// A part of the comparison: `one` for every number below `count`. Prints what
/// was met, and a line.
fn part(count: u64, name: &str, one: impl Fn(u64, &mut Met) -> Result<(), String> + Sync) -> Met {
    if !wanted(name) {
        return Met::default();
    }
    let start = Instant::now();
    let met = spread(count, one);
    for (name, count) in &met.names {
        println!("{count:>12} {name}");
    }
    let calls = match (met.calls, met.with_model) {
        (calls, 0) => format!("{calls} calls"),
        (0, model) => format!("{model} calls with the model"),
        (calls, model) => format!("{calls} calls, {model} more at size 3 with the model"),
    };
    println!("{count} {name}, {calls}, none differ, {} s", start.elapsed().as_secs());
    if met.left_out > 0 {
        println!("{} calls left out, none differs from the scope", met.left_out);
    }
    met
}

/// What the names of the parts have to contain.
static PARTS: OnceLock<String> = OnceLock::new();

fn wanted(name: &str) -> bool {
    PARTS.get().is_none_or(|parts| name.contains(parts))
}

/// The default bases, all of them.
fn default_bases(port: &impl Added) -> u64 {
    let mut bases = 0;
    for kind in [Kind::Ranges, Kind::Locations] {
        for version in 0..=8 {
            for (dwarf64, split) in [(false, false), (false, true), (true, false), (true, true)] {
                let oracle = gimli::default_base(kind, version, dwarf64, split);
                let ours = port.default_base(kind, version, dwarf64, split);
                if oracle != ours {
                    println!("default base, {kind:?} {version} {dwarf64} {split}: {oracle} {ours}");
                    differences(1);
                }
                bases += 1;
            }
        }
    }
    println!("{bases} default bases, none differ");
    bases
}

/// What is compared for a seed.
type Seeded<P> = fn(&P, u64, &mut Met) -> Result<(), String>;

fn run<P: Tabled>(port: &P, seeds: u64, first: u64, all: bool) {
    let short = u64::from(if all { generator::SHORT_LISTS } else { 1 + 0x100 + 0x10000 });
    let mut total = part(short, "short lists", |index, met| {
        let (bytes, length) = generator::short_list(index as u32);
        differ::short(port, &bytes[..length], met)
    });
    if wanted("default bases") {
        total.calls += default_bases(port);
    }
    total.join(part(generator::TABLE_HEADERS.into(), "table headers", |index, met| {
        let case = generator::table_header(index as u32);
        differ::tables(port, &case.section, case.big_endian, met)
            .map_err(|error| format!("table header {index}: {error}\n{case:x?}"))
    }));
    total.join(part(seeds, &format!("seeds from {first}"), |index, met| {
        let seed = first.wrapping_add(index);
        let case = generator::case(seed, &generator::SIZES);
        differ::compare(port, &case, seed, met)
            .map_err(|error| format!("seed {seed}: {error}\n{case:x?}"))
    }));
    total.join(part(seeds, &format!("lists with marks from seed {first}"), |index, met| {
        let seed = first.wrapping_add(index);
        let case = generator::list_case(&mut Random::new(seed), &READ);
        marks::compare(port, &case, seed, met)
            .map_err(|error| format!("marks, seed {seed}: {error}\n{case:x?}"))
    }));
    total.join(part(seeds, &format!("lists with defaults from seed {first}"), |index, met| {
        let seed = first.wrapping_add(index);
        let case = generator::default_list(seed);
        defaults::list(port, &case, seed, met)
            .map_err(|error| format!("defaults, seed {seed}: {error}\n{case:x?}"))
    }));
    let name = format!("built cases from seed {first}");
    total.join(part(seeds.div_ceil(20), &name, |index, met| {
        let seed = first.wrapping_add(index);
        built::compare(port, seed, met).map_err(|error| format!("built, seed {seed}: {error}"))
    }));
    total.join(part(short, "short strings as numbers", |index, met| {
        let (bytes, length) = generator::short_list(index as u32);
        padded::numbers(port, &bytes[..length], &[0x81, 0x80], met)
    }));
    total.join(part(short, "short strings in entries", |index, met| {
        let (bytes, length) = generator::short_list(index as u32);
        padded::short_entries(port, &bytes[..length], met)
    }));
    total.join(part(seeds, &format!("numbers from seed {first}"), |index, met| {
        let seed = first.wrapping_add(index);
        let before = &[0x80; 12][..1 + seed as usize % 12];
        padded::numbers(port, &generator::padded_number(seed), before, met)
            .map_err(|error| format!("number, seed {seed}: {error}"))
    }));
    let fourth = seeds.div_ceil(4);
    let name = format!("lists with padded numbers from seed {first}");
    total.join(part(fourth, &name, |index, met| {
        let seed = first.wrapping_add(index);
        let case = generator::padded_list(seed);
        padded::list(port, &case, seed, met)
            .map_err(|error| format!("padded, seed {seed}: {error}\n{case:x?}"))
    }));
    total.join(part(short, "short lists at size 3", |index, met| {
        let (bytes, length) = generator::short_list(index as u32);
        three::short(port, &bytes[..length], met)
    }));
    total.join(part(fourth, &format!("cases at size 3 from seed {first}"), |index, met| {
        let seed = first.wrapping_add(index);
        let case = generator::case(seed, &[3]);
        three::compare(port, &case, seed, met)
            .map_err(|error| format!("size 3, seed {seed}: {error}\n{case:x?}"))
    }));
    let name = format!("lists of size 3 up to an address, from seed {first}");
    total.join(part(fourth, &name, |index, met| {
        let seed = first.wrapping_add(index);
        let case = generator::list_case(&mut Random::new(seed), &[3]);
        three::up_to_an_address(port, &case, met)
            .map_err(|error| format!("up to an address, seed {seed}: {error}\n{case:x?}"))
    }));
    let name =
        format!("lists of size 3, widened where they stay below its bound, from seed {first}");
    total.join(part(fourth, &name, |index, met| {
        let seed = first.wrapping_add(index);
        let cases = generator::widened(seed);
        three::widened(port, &cases, seed, met)
            .map_err(|error| format!("widened, seed {seed}: {error}\n{cases:x?}"))
    }));
    total.join(part(kinds::CHANGES, "changes of the fixed table", |index, met| {
        kinds::change(port, index, met)
    }));
    total.join(part(fourth, &format!("tables loaded from seed {first}"), |index, met| {
        let seed = first.wrapping_add(index);
        kinds::tables(port, seed, met).map_err(|error| format!("tables, seed {seed}: {error}"))
    }));
    total.join(part(short, "short lists by tables", |index, met| {
        let (bytes, length) = generator::short_list(index as u32);
        kinds::short(port, &bytes[..length], met)
    }));
    let name = "short lists, their borders in one reading";
    total.join(part(short, name, |index, met| {
        let (bytes, length) = generator::short_list(index as u32);
        let mut lists = differ::short_lists(&bytes[..length]);
        lists.try_for_each(|list| stacks::borders(port, &list, met))?;
        kinds::short_stacks(port, &bytes[..length], met)
    }));
    total.join(part(short, "short lists in the profile", |index, met| {
        let (bytes, length) = generator::short_list(index as u32);
        let mut lists = differ::short_lists(&bytes[..length]);
        lists.try_for_each(|list| profile::short(port, &list, met))?;
        kinds::short_profile(port, &bytes[..length], met)
    }));
    let parts: [(&str, Seeded<P>, u64); 9] = [
        ("range lists by the fixed table", kinds::fixed, seeds),
        ("bare pairs by any table", kinds::bare, fourth),
        ("lists by any table", kinds::list, seeds),
        ("lists of many ranges by a table", kinds::many, seeds.div_ceil(20)),
        ("lists, addresses in one reading", stacks::list, seeds),
        ("lists by a table, addresses in one reading", kinds::stacks, seeds),
        ("lists in the profile", profile::list, seeds),
        ("lists with profile calls among others", profile::mixed, seeds),
        ("lists by a table in the profile", kinds::profiles, seeds),
    ];
    for (name, one, count) in parts {
        total.join(part(count, &format!("{name}, from seed {first}"), |index, met| {
            let seed = first.wrapping_add(index);
            one(port, seed, met).map_err(|error| format!("{name}, seed {seed}: {error}"))
        }));
    }
    let (calls, model) = (total.calls + total.with_model, total.with_model);
    println!("{calls} calls compared in all, {model} of them with the model, 0 differences");
}

fn main() {
    let (mut numbers, mut all, mut model) = (Vec::new(), false, false);
    for word in std::env::args().skip(1) {
        if word.strip_prefix("parts=").is_some_and(|parts| PARTS.set(parts.into()).is_ok()) {
            continue;
        }
        match (word.as_str(), word.parse::<u64>()) {
            ("all", _) if !all => all = true,
            ("model", _) if !model => model = true,
            (_, Ok(number)) if numbers.len() < 2 && !all && !model => numbers.push(number),
            _ => {
                eprintln!("differ [seeds [first seed]] [all] [model] [parts=text]: not {word}");
                std::process::exit(2);
            }
        }
    }
    let seeds = numbers.first().copied().unwrap_or(1_000_000);
    let first = numbers.get(1).copied().unwrap_or(0);
    if model {
        return run(&model::Model, seeds, first, all);
    }
    run(&port::Ffi, seeds, first, all)
}
