//! Port and gimli on the same bytes, in one process.
//!
//!   bench [--quick] [filter]         times, and how they compare
//!   bench --names [filter]           the rows' names
//!   bench --count side row passes    the row so often on one side: `port`,
//!                                    `one` or `several`; or, where addresses are
//!                                    looked up in one reading, `stack`, `lookup`,
//!                                    `lookups`, `gimli` or `gimlis`
//!   bench --marked [filter]          all rows and sides, a call of `bench_mark`
//!                                    before each and after it
//!   bench --real folder              times over all lists of the builds that
//!                                    `run-real` made there
//!   bench --marked-real folder       the same rows with marks

/// A task so many times; the sum of the last. The outer loop goes round once;
/// by it the compiler takes the inner one for hot, and inlines all of gimli's
/// readers where `next` has one caller, as in a program with nothing else.
macro_rules! repeat {
    ($passes:expr, $once:expr) => {{
        let mut sum = 0;
        for _ in 0..std::hint::black_box(1) {
            for _ in 0..$passes {
                sum = std::hint::black_box($once);
            }
        }
        sum
    }};
}

mod bench_gimli;
mod bench_port;
mod bench_real;
mod bench_rows;
mod bench_sets;
#[path = "real/elf.rs"]
#[allow(dead_code)]
mod elf;

use bench_gimli::{Choosing, Profiling, SharedChoosing};
use bench_gimli::{Covering, Heading, Lists, Marking, Putting, Seeking, Walking, Writing};
use bench_gimli::{Entering, Numbering, SharedEntering, SharedNumbering, Stacking};
use bench_rows::{Kind, NOWHERE, Row, Stack, Tabled, Task};
use oracle::endianity::RunTimeEndian;
use std::collections::BTreeSet;
use std::hint::black_box;

/// The row's task on one side, so many times; what it answers goes into a sum.
type Run<'a> = Box<dyn FnMut(u64) -> u64 + 'a>;

const SIDES: [&str; 3] = ["port", "one", "several"];

/// Port, gimli with one caller, gimli with several.
fn sides(row: &Row) -> [Run<'_>; 3] {
    let [port, one, several] = untabled(row);
    match row.tabled {
        Some(tabled) => [by_table(row, tabled), one, several],
        None => [port, one, several],
    }
}

/// The port's side by a table.
fn by_table(row: &Row, Tabled { kinds, section }: Tabled) -> Run<'_> {
    let row = Row { section, ..row.clone() };
    match row.task {
        Task::Walk => Box::new(move |passes| bench_port::walk_ranges_by(&row, kinds, passes)),
        Task::Raw => Box::new(move |passes| bench_port::raw_ranges_by(&row, kinds, passes)),
        Task::Profile => Box::new(move |passes| bench_port::profile_ranges_by(&row, kinds, passes)),
        Task::Lookup(address) => {
            Box::new(move |passes| bench_port::lookup_range_by(&row, kinds, address, passes))
        }
        Task::Coverage => {
            let mut made = bench_sets::Coverage::new();
            Box::new(move |passes| bench_port::coverage_by(&row, kinds, &mut made, passes))
        }
        Task::Runs => {
            let mut made = bench_sets::Runs::new();
            Box::new(move |passes| bench_port::runs_by(&row, kinds, &mut made, passes))
        }
        Task::Canonical => {
            let mut output = vec![0; bench_sets::LONGEST];
            Box::new(move |passes| bench_port::canonical_by(&row, kinds, &mut output, passes))
        }
        Task::Load => Box::new(move |passes| bench_port::load(kinds, passes)),
        task => panic!("{}: {task:?} has no table", row.name),
    }
}

fn untabled(row: &Row) -> [Run<'_>; 3] {
    match row.task {
        Task::Walk => walks(row),
        Task::Lookup(address) => lookups(row, address),
        Task::LookupPastDefaults(address) => lookups_past_defaults(row, address),
        Task::Coverage => coverages(row),
        Task::Runs => runs(row),
        Task::Canonical => canonicals(row),
        Task::Sheet => sheets(row),
        Task::FromSheet => from_sheets(row),
        Task::Headers => headers(row),
        Task::Marks => marks(row),
        Task::Raw => raws(row),
        Task::Profile => profiles(row),
        Task::Numbers => numbers(row),
        Task::Load => loads(row),
    }
}

fn walks(row: &Row) -> [Run<'_>; 3] {
    let (one, several) = (Lists::<Walking>::new(row), Lists::<RunTimeEndian>::new(row));
    if row.kind == Kind::Ranges {
        [
            Box::new(|passes| bench_port::walk_ranges(row, passes)),
            Box::new(move |passes| bench_gimli::walk_ranges(&one, passes)),
            Box::new(move |passes| bench_gimli::walk_ranges(&several, passes)),
        ]
    } else {
        [
            Box::new(|passes| bench_port::walk_locations(row, passes)),
            Box::new(move |passes| bench_gimli::walk_locations(&one, passes)),
            Box::new(move |passes| bench_gimli::walk_locations(&several, passes)),
        ]
    }
}

fn lookups(row: &Row, address: u64) -> [Run<'_>; 3] {
    let (one, several) = (Lists::<Seeking>::new(row), Lists::<RunTimeEndian>::new(row));
    if row.kind == Kind::Ranges {
        [
            Box::new(move |passes| bench_port::lookup_range(row, address, passes)),
            Box::new(move |passes| bench_gimli::lookup_range(&one, address, passes)),
            Box::new(move |passes| bench_gimli::lookup_range(&several, address, passes)),
        ]
    } else {
        [
            Box::new(move |passes| bench_port::lookup_location(row, address, passes)),
            Box::new(move |passes| bench_gimli::lookup_location(&one, address, passes)),
            Box::new(move |passes| bench_gimli::lookup_location(&several, address, passes)),
        ]
    }
}

fn lookups_past_defaults(row: &Row, address: u64) -> [Run<'_>; 3] {
    let (one, several) = (Lists::<Choosing>::new(row), Lists::<SharedChoosing>::new(row));
    [
        Box::new(move |passes| bench_port::lookup_location(row, address, passes)),
        Box::new(move |passes| bench_gimli::lookup_past_defaults(&one, address, passes)),
        Box::new(move |passes| bench_gimli::lookup_past_defaults(&several, address, passes)),
    ]
}

fn coverages(row: &Row) -> [Run<'_>; 3] {
    use bench_sets::Coverage;
    let (one, several) = (Lists::<Covering>::new(row), Lists::<RunTimeEndian>::new(row));
    let (mut found, mut found_several) = (Vec::new(), Vec::new());
    let mut made = Coverage::new();
    [
        Box::new(move |passes| bench_port::coverage(row, &mut made, passes)),
        Box::new(move |passes| bench_sets::coverage(&one, &mut found, passes)),
        Box::new(move |passes| bench_sets::coverage(&several, &mut found_several, passes)),
    ]
}

fn runs(row: &Row) -> [Run<'_>; 3] {
    use bench_sets::Runs;
    let (one, several) = (Lists::<Putting>::new(row), Lists::<RunTimeEndian>::new(row));
    let (mut found, mut found_several) = (Vec::new(), Vec::new());
    let [mut a, mut b, mut c] = [(); 3].map(|_| Runs::new());
    [
        Box::new(move |passes| bench_port::runs(row, &mut a, passes)),
        Box::new(move |passes| bench_sets::runs(&one, &mut found, &mut b, passes)),
        Box::new(move |passes| bench_sets::runs(&several, &mut found_several, &mut c, passes)),
    ]
}

fn canonicals(row: &Row) -> [Run<'_>; 3] {
    let (one, several) = (Lists::<Writing>::new(row), Lists::<RunTimeEndian>::new(row));
    let (mut found, mut found_several) = (Vec::new(), Vec::new());
    let outputs = [(); 3].map(|_| vec![0; bench_sets::LONGEST]);
    let [mut a, mut b, mut c] = outputs;
    [
        Box::new(move |passes| bench_port::canonical(row, &mut a, passes)),
        Box::new(move |passes| bench_sets::canonical(&one, &mut found, &mut b, passes)),
        Box::new(move |passes| bench_sets::canonical(&several, &mut found_several, &mut c, passes)),
    ]
}

/// The coverage of a row's list, made once.
fn covered(row: &Row) -> bench_sets::Coverage {
    let lists = Lists::<RunTimeEndian>::new(row);
    bench_sets::coverage_once(lists.open_ranges(lists.offset), &mut Vec::new()).expect("a coverage")
}

/// gimli has no sheets: both its columns are the same plain Rust.
fn sheets(row: &Row) -> [Run<'_>; 3] {
    let [made, one, several] = [(); 3].map(|_| Box::new(covered(row)));
    let [mut a, mut b, mut c] = [(); 3].map(|_| vec![0; bench_sets::LARGEST]);
    [
        Box::new(move |passes| bench_port::sheet(&made, &mut a, passes)),
        Box::new(move |passes| bench_sets::sheet(&one, &mut b, passes)),
        Box::new(move |passes| bench_sets::sheet(&several, &mut c, passes)),
    ]
}

fn from_sheets(row: &Row) -> [Run<'_>; 3] {
    let mut bytes = vec![0; bench_sets::LARGEST];
    bench_sets::sheet(&covered(row), &mut bytes, 1);
    bytes.truncate(4 + 16 * row.yields as usize);
    let [port, one, several] = [(); 3].map(|_| bytes.clone());
    let [mut a, mut b, mut c] = [(); 3].map(|_| Box::new(bench_sets::Coverage::new()));
    [
        Box::new(move |passes| bench_port::from_sheet(&port, &mut a, passes)),
        Box::new(move |passes| bench_sets::from_sheet(&one, &mut b, passes)),
        Box::new(move |passes| bench_sets::from_sheet(&several, &mut c, passes)),
    ]
}

fn headers(row: &Row) -> [Run<'_>; 3] {
    let (one, several) = (Lists::<Heading>::new(row), Lists::<RunTimeEndian>::new(row));
    [
        Box::new(|passes| bench_port::headers(row, passes)),
        Box::new(move |passes| bench_gimli::headers(&one, passes)),
        Box::new(move |passes| bench_gimli::headers(&several, passes)),
    ]
}

fn marks(row: &Row) -> [Run<'_>; 3] {
    let (one, several) = (Lists::<Marking>::new(row), Lists::<RunTimeEndian>::new(row));
    if row.kind == Kind::Ranges {
        [
            Box::new(|passes| bench_port::mark_ranges(row, passes)),
            Box::new(move |passes| bench_gimli::mark_ranges(&one, passes)),
            Box::new(move |passes| bench_gimli::mark_ranges(&several, passes)),
        ]
    } else {
        [
            Box::new(|passes| bench_port::mark_locations(row, passes)),
            Box::new(move |passes| bench_gimli::mark_locations(&one, passes)),
            Box::new(move |passes| bench_gimli::mark_locations(&several, passes)),
        ]
    }
}

fn raws(row: &Row) -> [Run<'_>; 3] {
    let (one, several) = (Lists::<Entering>::new(row), Lists::<SharedEntering>::new(row));
    if row.kind == Kind::Ranges {
        [
            Box::new(|passes| bench_port::raw_ranges(row, passes)),
            Box::new(move |passes| bench_gimli::raw_ranges(&one, passes)),
            Box::new(move |passes| bench_gimli::raw_ranges(&several, passes)),
        ]
    } else {
        [
            Box::new(|passes| bench_port::raw_locations(row, passes)),
            Box::new(move |passes| bench_gimli::raw_locations(&one, passes)),
            Box::new(move |passes| bench_gimli::raw_locations(&several, passes)),
        ]
    }
}

/// gimli has no profile: its raw entries, plain tests, and its conversion.
fn profiles(row: &Row) -> [Run<'_>; 3] {
    let (one, several) = (Lists::<Profiling>::new(row), Lists::<SharedChoosing>::new(row));
    if row.kind == Kind::Ranges {
        [
            Box::new(|passes| bench_port::profile_ranges(row, passes)),
            Box::new(move |passes| bench_gimli::profile_ranges(&one, passes)),
            Box::new(move |passes| bench_gimli::profile_ranges(&several, passes)),
        ]
    } else {
        [
            Box::new(|passes| bench_port::profile_locations(row, passes)),
            Box::new(move |passes| bench_gimli::profile_locations(&one, passes)),
            Box::new(move |passes| bench_gimli::profile_locations(&several, passes)),
        ]
    }
}

fn numbers(row: &Row) -> [Run<'_>; 3] {
    let one = bench_gimli::section::<Numbering>(row);
    let several = bench_gimli::section::<SharedNumbering>(row);
    [
        Box::new(|passes| bench_port::numbers(row, passes)),
        Box::new(move |passes| bench_gimli::numbers(one, passes)),
        Box::new(move |passes| bench_gimli::numbers(several, passes)),
    ]
}

/// gimli has no tables: all columns but the port's are the same plain Rust.
fn loads(row: &Row) -> [Run<'_>; 3] {
    let kinds = row.tabled.expect("a table").kinds;
    [(); 3].map(|_| Box::new(move |passes| bench_sets::load(kinds, passes)) as Run<'_>)
}

const STACK_SIDES: [&str; 5] = ["stack", "lookup", "lookups", "gimli", "gimlis"];

/// All addresses in one reading; one lookup that reads the whole list; a lookup for
/// each address; and these two over gimli with one caller.
fn stack_sides(Stack { row, addresses }: &Stack) -> [Run<'_>; 5] {
    let mut found = bench_port::places();
    let lists = || Lists::<Stacking>::new(row);
    let (one, each) = (lists(), lists());
    if row.kind != Kind::Ranges {
        return [
            Box::new(move |passes| bench_port::stack_locations(row, addresses, &mut found, passes)),
            Box::new(|passes| bench_port::each_location(row, &[NOWHERE], passes)),
            Box::new(|passes| bench_port::each_location(row, addresses, passes)),
            Box::new(move |passes| bench_gimli::each_location(&one, &[NOWHERE], passes)),
            Box::new(move |passes| bench_gimli::each_location(&each, addresses, passes)),
        ];
    }
    let gimli: [Run<'_>; 2] = [
        Box::new(move |passes| bench_gimli::each_range(&one, &[NOWHERE], passes)),
        Box::new(move |passes| bench_gimli::each_range(&each, addresses, passes)),
    ];
    let port: [Run<'_>; 3] = match row.tabled {
        None => [
            Box::new(move |passes| bench_port::stack_ranges(row, addresses, &mut found, passes)),
            Box::new(|passes| bench_port::each_range(row, &[NOWHERE], passes)),
            Box::new(|passes| bench_port::each_range(row, addresses, passes)),
        ],
        Some(Tabled { kinds, section }) => {
            let rows = [(); 3].map(|_| Row { section, ..row.clone() });
            let [a, b, c] = rows;
            [
                Box::new(move |passes| {
                    bench_port::stack_ranges_by(&a, kinds, addresses, &mut found, passes)
                }),
                Box::new(move |passes| bench_port::each_range_by(&b, kinds, &[NOWHERE], passes)),
                Box::new(move |passes| bench_port::each_range_by(&c, kinds, addresses, passes)),
            ]
        }
    };
    let ([a, b, c], [d, e]) = (port, gimli);
    [a, b, c, d, e]
}

fn check_stack(stack: &Stack, runs: &mut [Run<'_>; 5]) {
    let [one_reading, nowhere, each, gimli_nowhere, gimli_each] = runs.each_mut().map(|run| run(1));
    let sums = [one_reading, each, gimli_each];
    let same = one_reading == each && each == gimli_each;
    assert!(same && (nowhere, gimli_nowhere) == (0, 0), "{}: {sums:x?}", stack.row.name);
}

/// Both sides must have read the same before anything is timed.
fn check(row: &Row, runs: &mut [Run<'_>; 3]) {
    let lists = Lists::<RunTimeEndian>::new(row);
    let yielded = match (row.task, row.kind) {
        (Task::Headers, _) => bench_gimli::count_headers(&lists),
        (Task::Load, _) => 1,
        (Task::LookupPastDefaults(_), _) => bench_gimli::count_converted(&Lists::new(row)),
        (Task::Profile, Kind::Ranges) => bench_gimli::count_converted_ranges(&Lists::new(row)),
        (Task::Profile, _) => bench_gimli::count_converted(&Lists::new(row)),
        (Task::Raw, Kind::Ranges) => bench_gimli::count_raw_ranges(&Lists::new(row)),
        (Task::Raw, _) => bench_gimli::count_raw_locations(&Lists::new(row)),
        (Task::Numbers, _) => bench_gimli::count_numbers(bench_gimli::section(row)),
        (_, Kind::Ranges) => bench_gimli::count_ranges(&lists),
        _ => bench_gimli::count_locations(&lists),
    };
    assert_eq!(yielded, row.yields, "{}", row.name);
    let sums = runs.each_mut().map(|run| run(1));
    assert!(sums[0] == sums[1] && sums[1] == sums[2], "{}: {sums:x?}", row.name);
}

struct Settings {
    rounds: usize,
    /// Nanoseconds that one side runs in one round.
    sample: f64,
}

fn time(run: &mut Run<'_>, passes: u64) -> f64 {
    let start = clock();
    black_box(run(passes));
    clock() - start
}

/// Nanoseconds of this thread on a processor, so that time given to other
/// processes doesn't count.
#[cfg(target_os = "linux")]
fn clock() -> f64 {
    unsafe extern "C" {
        fn clock_gettime(clock: i32, time: &mut [i64; 2]) -> i32;
    }
    const CLOCK_THREAD_CPUTIME_ID: i32 = 3;
    let mut time = [0; 2];
    assert!(unsafe { clock_gettime(CLOCK_THREAD_CPUTIME_ID, &mut time) } == 0);
    time[0] as f64 * 1e9 + time[1] as f64
}

#[cfg(not(target_os = "linux"))]
fn clock() -> f64 {
    use std::sync::OnceLock;
    use std::time::Instant;
    static START: OnceLock<Instant> = OnceLock::new();
    START.get_or_init(Instant::now).elapsed().as_nanos() as f64
}

/// So many passes that the faster side fills a sample.
fn passes<const N: usize>(runs: &mut [Run<'_>; N], sample: f64) -> u64 {
    let mut passes = 1;
    loop {
        let times = runs.each_mut().map(|run| time(run, passes));
        let least = times.into_iter().fold(f64::INFINITY, f64::min);
        if least >= sample {
            return passes;
        }
        let factor = (sample / least.max(1.0)).clamp(1.2, 16.0);
        passes = (passes as f64 * factor) as u64 + 1;
    }
}

/// A sorted sample.
struct Spread(Vec<f64>);

impl Spread {
    fn new(mut values: Vec<f64>) -> Spread {
        values.sort_by(f64::total_cmp);
        Spread(values)
    }

    fn at(&self, part: f64) -> f64 {
        self.0[((self.0.len() - 1) as f64 * part).round() as usize]
    }

    fn median(&self) -> f64 {
        self.at(0.5)
    }
}

struct Measured {
    name: String,
    /// Nanoseconds for each entry: port, one caller, several.
    times: [f64; 3],
    /// Port to gimli, round by round: one caller, several.
    ratios: [Spread; 2],
}

/// A pass reads so many entries, or lists.
fn measure(name: &str, each: u64, runs: &mut [Run<'_>; 3], settings: &Settings) -> Measured {
    let (passes, rounds) = rounds(runs, settings);
    let each = (passes * each) as f64;
    Measured {
        name: name.to_string(),
        times: [0, 1, 2].map(|side| median(&rounds, side) / each),
        ratios: [ratios(&rounds, 1), ratios(&rounds, 2)],
    }
}

/// The times of all sides, round by round, and of how many passes.
fn rounds<const N: usize>(runs: &mut [Run<'_>; N], settings: &Settings) -> (u64, Vec<[f64; N]>) {
    let passes = passes(runs, settings.sample);
    let round = |_| runs.each_mut().map(|run| time(run, passes));
    (passes, (0..settings.rounds).map(round).collect())
}

fn median<const N: usize>(rounds: &[[f64; N]], side: usize) -> f64 {
    Spread::new(rounds.iter().map(|round| round[side]).collect()).median()
}

/// The first side to another.
fn ratios<const N: usize>(rounds: &[[f64; N]], side: usize) -> Spread {
    Spread::new(rounds.iter().map(|round| round[0] / round[side]).collect())
}

fn header(each: &str) {
    println!(
        "{:44} {:>8} {:>8} {:>8}   {:31}   {:31}",
        each, "port", "one", "several", "port/one: median quartiles range", "port/several"
    );
}

/// Median, quartiles, range.
fn ratio(spread: &Spread) -> String {
    format!(
        "{:5.2}  {:5.2} {:5.2}  {:5.2} {:5.2}",
        spread.median(),
        spread.at(0.25),
        spread.at(0.75),
        spread.at(0.0),
        spread.at(1.0)
    )
}

fn print(measured: &Measured) {
    let [port, one, several] = measured.times;
    let [to_one, to_several] = &measured.ratios;
    println!(
        "{:44} {port:8.2} {one:8.2} {several:8.2}   {:31}   {:31}",
        measured.name,
        ratio(to_one),
        ratio(to_several)
    );
}

fn summary(all: &mut [Measured]) {
    for (side, word) in [(0, "one caller"), (1, "several callers")] {
        let ratios = Spread::new(all.iter().map(|row| row.ratios[side].median()).collect());
        let mean = ratios.0.iter().map(|ratio| ratio.ln()).sum::<f64>() / ratios.0.len() as f64;
        let above = ratios.0.iter().filter(|&&ratio| ratio > 1.0).count();
        println!(
            "port/gimli, {word}: {} rows, {above} above 1; best {:.2}, median {:.2}, \
             geometric mean {:.2}, worst {:.2}",
            ratios.0.len(),
            ratios.at(0.0),
            ratios.median(),
            mean.exp(),
            ratios.at(1.0)
        );
    }
    all.sort_by(|a, b| b.ratios[0].median().total_cmp(&a.ratios[0].median()));
    println!("the worst, to one caller:");
    header("ns for each entry");
    all.iter().take(10).for_each(print);
}

fn fail(message: &str) -> ! {
    eprintln!("bench: {message}");
    std::process::exit(2)
}

fn chosen(wanted: impl Fn(&str) -> bool) -> (Vec<Row>, Vec<Stack>) {
    let (rows, stacks) = (bench_rows::rows(&wanted), bench_rows::stacks(&wanted));
    if rows.is_empty() && stacks.is_empty() {
        fail("no row has such a name");
    }
    (rows, stacks)
}

fn tables(filter: &str, settings: &Settings) {
    let (rows, stacks) = chosen(|name| name.contains(filter));
    if !rows.is_empty() {
        table(&rows, settings);
    }
    if !stacks.is_empty() {
        stack_table(&stacks, settings);
    }
}

/// Nanoseconds for each call, or for the calls for all addresses.
fn stack_table(stacks: &[Stack], settings: &Settings) {
    println!("{} rounds of {}", settings.rounds, STACK_SIDES.join(", "));
    print!("{:44}", "ns for all addresses");
    STACK_SIDES.iter().for_each(|side| print!(" {side:>9}"));
    println!("   {:31}  {:>9} {:>6} {:>7}", "stack/lookup", "/lookups", "/gimli", "/gimlis");
    let mut to_one = Vec::new();
    for stack in stacks {
        let mut runs = stack_sides(stack);
        check_stack(stack, &mut runs);
        let (passes, rounds) = rounds(&mut runs, settings);
        print!("{:44}", stack.row.name);
        for side in 0..STACK_SIDES.len() {
            print!(" {:9.1}", median(&rounds, side) / passes as f64);
        }
        let [one, each, gimli, gimlis] = [1, 2, 3, 4].map(|side| ratios(&rounds, side));
        let medians = [&each, &gimli, &gimlis].map(Spread::median);
        let [each, gimli, gimlis] = medians;
        println!("   {}  {each:9.2} {gimli:6.2} {gimlis:7.2}", ratio(&one));
        to_one.push((stack.row.entries, stack.addresses.len(), one.median()));
    }
    println!();
    let sorts: BTreeSet<_> = to_one.iter().map(|&(entries, number, _)| (entries, number)).collect();
    for (entries, number) in sorts {
        let of = |row: &&(u64, usize, f64)| (row.0, row.1) == (entries, number);
        let ratios = Spread::new(to_one.iter().filter(of).map(|row| row.2).collect());
        let above = ratios.0.iter().filter(|&&ratio| ratio > 1.5).count();
        println!(
            "stack/lookup, entries {entries}, addresses {number}: {} rows, {above} above 1.5; \
             best {:.2}, median {:.2}, worst {:.2}",
            ratios.0.len(),
            ratios.at(0.0),
            ratios.median(),
            ratios.at(1.0)
        );
    }
}

fn table(rows: &[Row], settings: &Settings) {
    println!("{} rounds of port, one, several", settings.rounds);
    header("ns for each entry");
    let mut all = Vec::new();
    for row in rows {
        let mut runs = sides(row);
        check(row, &mut runs);
        let measured = measure(&row.name, row.entries, &mut runs, settings);
        print(&measured);
        all.push(measured);
    }
    println!();
    summary(&mut all);
}

fn count(side: &str, wanted: &str, passes: &str) {
    let Ok(passes) = passes.parse::<u64>() else { fail("not a number of passes") };
    let (rows, stacks) = chosen(|name| name == wanted);
    let at = |sides: &[&str]| match sides.iter().position(|&word| word == side) {
        Some(at) => at,
        None => fail(&format!("a side is {}", sides.join(", "))),
    };
    match rows.first() {
        Some(row) => {
            black_box(sides(row)[at(&SIDES)](passes));
            println!("{} entries", passes * row.entries);
        }
        None => {
            black_box(stack_sides(&stacks[0])[at(&STACK_SIDES)](passes));
            println!("{passes} readings");
        }
    }
}

#[inline(never)]
#[unsafe(no_mangle)]
pub extern "C" fn bench_mark(section: u64) {
    black_box(section);
}

/// One line for each pair of marks: row, side, and how many entries, or lists,
/// are read between them.
fn mark(name: &str, each: u64, runs: &mut [Run<'_>; 3]) {
    let passes = 1 + 2000 / each;
    for (side, run) in SIDES.iter().zip(runs) {
        mark_side(&format!("{name} {side} {}", passes * each), passes, run);
    }
}

fn mark_side(line: &str, passes: u64, run: &mut Run<'_>) {
    println!("{line}");
    black_box(run(1));
    bench_mark(1);
    black_box(run(passes));
    bench_mark(0);
}

fn marked(filter: &str) {
    let (rows, stacks) = chosen(|name| name.contains(filter));
    for row in &rows {
        mark(&row.name, row.entries, &mut sides(row));
    }
    for stack in &stacks {
        let (name, passes) = (&stack.row.name, 1 + 100 / stack.row.entries);
        for (side, run) in STACK_SIDES.iter().zip(&mut stack_sides(stack)) {
            mark_side(&format!("{name} {side} {passes}"), passes, run);
        }
    }
}

fn names(filter: &str) {
    let (rows, stacks) = chosen(|name| name.contains(filter));
    let stacks = stacks.iter().map(|stack| &stack.row);
    rows.iter().chain(stacks).for_each(|row| println!("{}", row.name));
}

fn main() {
    let arguments: Vec<String> = std::env::args().skip(1).collect();
    let words: Vec<&str> = arguments.iter().map(String::as_str).collect();
    let full = Settings { rounds: 25, sample: 500_000.0 };
    let quick = Settings { rounds: 15, sample: 60_000.0 };
    match words[..] {
        [] => tables("", &full),
        ["--quick"] => tables("", &quick),
        ["--quick", filter] | [filter, "--quick"] => tables(filter, &quick),
        ["--names"] => names(""),
        ["--names", filter] => names(filter),
        ["--count", side, row, passes] => count(side, row, passes),
        ["--marked"] => marked(""),
        ["--marked", filter] => marked(filter),
        ["--real", folder] => bench_real::table(folder, &full),
        ["--marked-real", folder] => bench_real::marked(folder),
        [filter] if !filter.starts_with('-') => tables(filter, &full),
        _ => fail("bench [--quick] [filter] | --names [filter] | --count side row passes"),
    }
}
