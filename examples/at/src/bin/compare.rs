//! Holds the answers for many addresses against those of other tools.
//!
//!   compare FILE COUNT NAMES DUMP [--split SPLIT]..
//!   compare twins FILE OTHER COUNT NAMES [--split SPLIT]..
//!
//! The first takes COUNT addresses of FILE's code, spread evenly. NAMES is a copy of FILE without a symbol table, which
//! addr2line and llvm-symbolizer are asked about, so that both answer from the debug information alone; DUMP is what
//! llvm-dwarfdump --debug-info printed of FILE, or - where locations are not held against it. The second holds the answers
//! for a split FILE against those for OTHER, the same code with its debug information in one file, and against
//! llvm-symbolizer, which follows the .dwo files.
//!
//! Every difference is printed; the last line has their number, and the exit status is 1 where there are any.

use object::{Object, ObjectSection, SectionFlags, elf};
use std::collections::HashMap;
use std::io::Write;
use std::path::Path;
use std::process::{Command, ExitCode, Stdio};
use yeltzarun_at::program::Program;
use yeltzarun_at::scope::{self, Answer, Lives, Source, Variable};
use yeltzarun_at::{command, operations, text};

/// The first differences are printed, then they are counted.
const PRINTED: usize = 8;

#[derive(Default)]
struct Counts {
    rows: Vec<(&'static str, usize)>,
    differences: usize,
}

impl Counts {
    fn add(&mut self, row: &'static str) {
        match self.rows.iter_mut().find(|(name, _)| *name == row) {
            Some((_, count)) => *count += 1,
            None => self.rows.push((row, 1)),
        }
    }

    fn differ(&mut self, what: String) {
        if self.differences < PRINTED {
            println!("{what}");
        }
        self.differences += 1;
    }

    fn finish(&self, file: &str) -> ExitCode {
        let rows = self.rows.iter().map(|(name, count)| format!("{count} {name}"));
        println!("{file}: {}, {} differences", rows.collect::<Vec<_>>().join(", "), self.differences);
        ExitCode::from(u8::from(self.differences != 0))
    }
}

/// Addresses of the code, spread evenly.
fn addresses(path: &str, count: usize) -> Vec<u64> {
    let bytes = std::fs::read(path).unwrap();
    let object = object::File::parse(&bytes[..]).unwrap();
    let mut code = object
        .sections()
        .filter(|section| is_code(section.flags()) && section.size() > 0)
        .map(|section| (section.address(), section.size()))
        .collect::<Vec<_>>();
    code.sort();
    let all: u64 = code.iter().map(|(_, size)| size).sum();
    let step = (all / count as u64).max(1);
    let mut addresses = Vec::new();
    let mut left = 0;
    for (begin, size) in code {
        while left < size {
            addresses.push(begin + left);
            left += step;
        }
        left -= size;
    }
    addresses
}

/// Whether a section has code; in a file with debug information alone its bytes are missing.
fn is_code(flags: SectionFlags) -> bool {
    matches!(flags, SectionFlags::Elf { sh_flags } if sh_flags & u64::from(elf::SHF_EXECINSTR) != 0)
}

/// A tool's output for words on its standard input.
fn ask(tool: &str, words: &[&str], input: &str) -> String {
    let mut child = Command::new(tool)
        .args(words)
        .stdin(Stdio::piped())
        .stdout(Stdio::piped())
        .stderr(Stdio::null())
        .spawn()
        .unwrap_or_else(|error| panic!("{tool}: {error}"));
    let mut stdin = child.stdin.take().unwrap();
    let input = input.to_string();
    let writer = std::thread::spawn(move || stdin.write_all(input.as_bytes()));
    let output = child.wait_with_output().unwrap();
    let _ = writer.join();
    String::from_utf8_lossy(&output.stdout).into_owned()
}

/// For each address the names of its routines, the innermost first; none where the tool knows none.
fn addr2line(file: &str, addresses: &[u64]) -> Vec<Vec<String>> {
    let input = addresses.iter().map(|address| format!("{address:#x}\n")).collect::<String>();
    let output = ask("addr2line", &["-a", "-f", "-i", "-e", file], &input);
    let mut answers: Vec<Vec<String>> = Vec::new();
    let mut lines = output.lines();
    while let Some(line) = lines.next() {
        if line.starts_with("0x") {
            answers.push(Vec::new());
            continue;
        }
        lines.next();
        if line != "??" {
            answers.last_mut().unwrap().push(line.to_string());
        }
    }
    answers
}

fn symbolizer(file: &str, addresses: &[u64]) -> Vec<Vec<String>> {
    let input = addresses.iter().map(|address| format!("{address:#x}\n")).collect::<String>();
    let obj = format!("--obj={file}");
    let words = [&obj, "--functions=linkage", "--no-demangle", "--inlines"];
    let output = ask("llvm-symbolizer", &words, &input);
    let blocks = output.split("\n\n").filter(|block| !block.trim().is_empty());
    blocks
        .map(|block| {
            let names = block.trim().lines().step_by(2);
            names.filter(|name| *name != "??").map(String::from).collect()
        })
        .collect()
}

/// What llvm-dwarfdump shows of an entry's attribute.
#[derive(Debug, Default)]
struct Dumped {
    /// One expression.
    plain: Option<String>,
    /// Ranges, with an expression where they are of a location list.
    list: Vec<(u64, u64, String)>,
    is_list: bool,
}

/// By the place of an entry and the attribute's name.
fn dumped(path: &str) -> HashMap<(usize, String), Dumped> {
    let text = std::fs::read_to_string(path).unwrap();
    let mut dump = HashMap::new();
    let (mut entry, mut open) = (0, None::<String>);
    for line in text.lines() {
        let word = line.trim_start();
        if line.starts_with("0x") {
            if let Some((offset, _)) = line.split_once(':') {
                entry = usize::from_str_radix(&offset[2..], 16).unwrap();
            }
            open = None;
        } else if word.starts_with("DW_AT_") {
            let (name, value) = word.split_once('\t').unwrap_or((word, ""));
            open = None;
            if ["DW_AT_location", "DW_AT_frame_base", "DW_AT_ranges"].contains(&name) {
                let value = value.strip_prefix('(').unwrap_or(value);
                let one = dump.entry((entry, name.to_string())).or_insert_with(Dumped::default);
                if value.starts_with("0x") || value.starts_with("indexed") {
                    one.is_list = true;
                    open = Some(name.to_string());
                } else {
                    one.plain = Some(value.strip_suffix(')').unwrap_or(value).to_string());
                }
            }
        } else if let (Some(name), true) = (&open, word.starts_with("[0x")) {
            let one: &mut Dumped = dump.get_mut(&(entry, name.clone())).unwrap();
            let (range, rest) = word[1..].split_once(')').unwrap();
            let (begin, end) = range.split_once(", ").unwrap();
            let hex = |word: &str| u64::from_str_radix(&word[2..], 16).unwrap();
            let told = rest.strip_prefix(": ").unwrap_or("");
            // The last entry is followed by the attribute's closing bracket.
            let closed = told.matches('(').count() < told.matches(')').count();
            let told = if closed { &told[..told.len() - 1] } else { told };
            one.list.push((hex(begin), hex(end), told.to_string()));
        }
    }
    dump
}

/// Operations as words and numbers, so that two spellings of them can be compared.
fn words(told: &str) -> Vec<String> {
    let mut plain = String::new();
    let mut quoted = false;
    for c in told.chars() {
        match c {
            '"' => quoted = !quoted,
            _ if quoted => {}
            '(' | ')' | ',' | '<' | '>' | '[' | ']' => plain.push(' '),
            '+' | '-' => {
                plain.push(' ');
                plain.push(c);
            }
            c => plain.extend(c.to_lowercase()),
        }
    }
    let mut words = Vec::<String>::new();
    for word in plain.split_whitespace() {
        let digits = word.strip_prefix('+').unwrap_or(word);
        let number = match digits.strip_prefix("0x") {
            Some(hex) => u64::from_str_radix(hex, 16).ok().map(|number| number as i128),
            None => digits.parse::<i128>().ok(),
        };
        match number {
            Some(number) => words.push(number.to_string()),
            None if word.starts_with("dw_op") || word.starts_with("decoding") => words.push(word.into()),
            // Registers: the operation has their number. Names of types.
            None => {}
        }
    }
    words
}

/// The program's own operations, in the spelling of llvm-dwarfdump where that shows less.
fn own(unit: &yeltzarun_at::unit::Unit, bytes: &'static [u8]) -> Vec<String> {
    let told = operations::text(unit, bytes);
    let mut spelled = String::new();
    let mut rest = told.as_str();
    // Of an address by its index, the index; of bytes, their number too; of a register, no number.
    while let Some(at) = rest.find(['<', '(', 'r']) {
        let (before, from) = rest.split_at(at);
        spelled.push_str(before);
        if let Some(bytes) = from.strip_prefix('<') {
            let (bytes, after) = bytes.split_once('>').unwrap();
            let bytes = bytes.split_whitespace().map(|byte| format!(" 0x{byte}")).collect::<Vec<_>>();
            spelled.push_str(&format!("{:#x}{}", bytes.len(), bytes.concat()));
            rest = after;
        } else if let Some(index) = from.strip_prefix("(index ") {
            let (index, after) = index.split_once(" of the address table)").unwrap();
            let cut = spelled.trim_end().rfind(' ').unwrap();
            spelled.truncate(cut);
            spelled.push_str(&format!(" {index}"));
            rest = after.strip_prefix(" [proved]").unwrap_or(after);
        } else if let Some(number) = from.strip_prefix("register ") {
            rest = number.trim_start_matches(|c: char| c.is_ascii_digit());
        } else {
            spelled.push_str(&from[..1]);
            rest = &from[1..];
        }
    }
    spelled.push_str(rest);
    words(&spelled)
}

fn compare_variable(counts: &mut Counts, dump: &HashMap<(usize, String), Dumped>, address: u64, variable: &Variable) {
    let entry = variable.entry.unit().section_offset(variable.entry.offset);
    let name = if variable.kind == "frame base" { "DW_AT_frame_base" } else { "DW_AT_location" };
    let who = format!("{address:#x}: entry {entry:#x} {} {name}", text::name(&variable.name));
    let Some(dumped) = dump.get(&(entry, name.to_string())) else {
        match variable.lives {
            Lives::List(..) => counts.add("lists of an origin"),
            _ => counts.add("without a location of their own"),
        }
        return;
    };
    match &variable.lives {
        Lives::Expression(bytes) => {
            counts.add("plain expressions");
            let theirs = words(dumped.plain.as_deref().unwrap_or("a list"));
            let ours = own(&variable.unit, bytes);
            if theirs != ours {
                counts.differ(format!("{who}: {ours:?}, llvm-dwarfdump {theirs:?}"));
            }
        }
        Lives::List(_, found) => {
            let holding = |(begin, end, _): &&(u64, u64, String)| *begin <= address && address < *end;
            let theirs = dumped
                .list
                .iter()
                .filter(holding)
                .map(|(begin, end, told)| (*begin, *end, words(told)))
                .collect::<Vec<_>>();
            let ours = found
                .iter()
                .map(|one| (one.range.begin, one.range.end, own(&variable.unit, one.expression)))
                .collect::<Vec<_>>();
            counts.add(if found.is_empty() { "nowhere" } else { "found in a list" });
            let (mut theirs, mut ours) = (theirs, ours);
            // GNU's operations that it doesn't know it shows as bytes; the ranges are held together.
            if theirs.iter().any(|(_, _, told)| told.iter().any(|word| word == "decoding")) {
                counts.add("with operations unknown to llvm-dwarfdump");
                theirs.iter_mut().chain(&mut ours).for_each(|(_, _, told)| told.clear());
            }
            if theirs != ours || !dumped.is_list {
                counts.differ(format!("{who}: {ours:x?}, llvm-dwarfdump {theirs:x?}"));
            }
        }
        lives => counts.differ(format!("{who}: {lives:?}, llvm-dwarfdump {dumped:?}")),
    }
}

fn compare(words: &[&str], split: &[&Path]) -> ExitCode {
    let [file, count, names, dump] = words else { panic!("FILE COUNT NAMES DUMP") };
    let addresses = addresses(file, count.parse().unwrap());
    let program = Program::open(Path::new(file), split, None).unwrap_or_else(|wrong| panic!("{wrong}"));
    let dump = if *dump == "-" { HashMap::new() } else { dumped(dump) };
    let [gnu, llvm] = [addr2line(names, &addresses), symbolizer(names, &addresses)];
    let mut counts = Counts::default();
    for (tool, answers) in [("addr2line", &gnu), ("llvm-symbolizer", &llvm)] {
        if answers.len() != addresses.len() {
            counts.differ(format!("{tool}: {} answers for {}", answers.len(), addresses.len()));
        }
    }
    for ((&address, gnu), llvm) in addresses.iter().zip(&gnu).zip(&llvm) {
        let answer = scope::at(&program, address);
        counts.add("addresses");
        for wrong in &answer.wrongs {
            counts.differ(format!("{address:#x}: {wrong}"));
        }
        let stacks = stacks(&answer);
        if stacks.len() > 1 {
            counts.add("with several routines");
        }
        counts.add(if stacks.is_empty() { "not there" } else { "with a routine" });
        for (tool, theirs) in [("addr2line", gnu), ("llvm-symbolizer", llvm)] {
            if tool == "addr2line" && lacks_indexed(&answer, gnu, llvm) {
                counts.add("where addr2line passes over an inlined routine");
                continue;
            }
            if !agree(&stacks, theirs) {
                counts.differ(format!("{address:#x}: {stacks:?}, {tool} {theirs:?}"));
            }
        }
        if !dump.is_empty() {
            locations(&mut counts, &dump, address, &answer);
        }
    }
    counts.finish(file)
}

/// Whether a tool has all routines but inlined ones, at least one of which has its ranges in a list.
fn passes_over(answer: &Answer, theirs: &[String]) -> bool {
    let [stack] = &answer.stacks[..] else { return false };
    let mut left = theirs.iter().map(String::as_str).peekable();
    let passed_over = stack.routines.iter().filter(|one| left.next_if_eq(&linkage(one)).is_none()).collect::<Vec<_>>();
    left.next().is_none()
        && passed_over.iter().all(|one| one.inlined)
        && passed_over.iter().any(|one| matches!(one.held.source, Source::List(_)))
}

/// Whether addr2line lacks an inlined routine of version 5 that llvm-symbolizer has: binutils 2.40 does not find a list by
/// its index.
fn lacks_indexed(answer: &Answer, gnu: &[String], llvm: &Vec<String>) -> bool {
    let of_version_5 = answer.stacks.iter().all(|stack| stack.unit.context.encoding.version >= 5);
    of_version_5 && agree(&stacks(answer), llvm) && passes_over(answer, gnu)
}

/// The names of the routines that hold the address, each with the inlined ones in it.
fn stacks(answer: &Answer) -> Vec<Vec<String>> {
    let names = |stack: &scope::Stack| stack.routines.iter().map(|one| linkage(one).to_string()).collect();
    answer.stacks.iter().map(names).collect()
}

/// Whether a tool's routines are those of one of the stacks, or none where there is none.
fn agree(stacks: &[Vec<String>], theirs: &Vec<String>) -> bool {
    if stacks.is_empty() { theirs.is_empty() } else { stacks.contains(theirs) }
}

fn linkage(routine: &scope::Routine) -> &str {
    routine.linkage_name.as_deref().or(routine.name.as_deref()).unwrap_or("")
}

fn locations(counts: &mut Counts, dump: &HashMap<(usize, String), Dumped>, address: u64, answer: &Answer) {
    for routine in answer.stacks.iter().flat_map(|stack| &stack.routines) {
        if let Source::List(_) = routine.held.source {
            let entry = routine.entry.unit().section_offset(routine.entry.offset);
            let theirs = dump.get(&(entry, "DW_AT_ranges".to_string()));
            let holding = theirs
                .and_then(|dumped| dumped.list.iter().find(|(begin, end, _)| *begin <= address && address < *end));
            counts.add("ranges in a list");
            let ours = routine.held.range;
            if holding.map(|(begin, end, _)| (*begin, *end)) != Some((ours.begin, ours.end)) {
                counts.differ(format!("{address:#x}: entry {entry:#x}: {ours:x?}, {theirs:x?}"));
            }
        }
        for variable in routine.frame_base.iter().chain(&routine.variables) {
            compare_variable(counts, dump, address, variable);
        }
    }
}

/// The answer without the places of entries and lists, which differ between a split file and a whole one.
fn placeless(address: u64, answer: &Answer) -> Vec<String> {
    let mut lines = Vec::new();
    for line in text::answer(address, answer).lines() {
        let line = line.split(" (entry 0x").next().unwrap();
        let line = line.split(", by ").next().unwrap();
        let line = line.split(" (DWARF").next().unwrap();
        // References to entries, and addresses by their index.
        let mut plain = String::new();
        let mut depth = 0;
        for c in line.chars() {
            match c {
                '(' | '[' => depth += 1,
                ')' | ']' => depth -= 1,
                c if depth == 0 => plain.push(c),
                _ => {}
            }
        }
        lines.push(plain.replace("DW_OP_addrx", "DW_OP_addr").replace("DW_OP_GNU_addr_index", "DW_OP_addr"));
    }
    lines.iter_mut().for_each(|line| *line = line.split_whitespace().collect::<Vec<_>>().join(" "));
    lines
}

/// Whether all that differs comes from gcc's lengths in split lists of version 4. For a range from L - 1 to M it writes
/// `M-L-1`, which is 2 less than the length; where the length is 1 that is -1, taken as 4 GB.
fn short_lengths(address: u64, split: &[String], whole: &[String]) -> bool {
    let located = |line: &str| {
        let (head, end) = line.rsplit_once(" to 0x")?;
        let (head, begin) = head.rsplit_once(", 0x")?;
        let number = |digits: &str| u64::from_str_radix(digits, 16).ok();
        Some((head.to_string(), number(begin)?, number(end)?))
    };
    let only = |here: &[String], there: &[String]| {
        here.iter().filter(|line| !there.contains(line)).cloned().collect::<Vec<_>>()
    };
    let who = |line: &str| line.split(": ").next().unwrap().to_string();
    let (ours, theirs) = (only(split, whole), only(whole, split));
    let wrapped = |(_, begin, end): &(String, u64, u64)| end.wrapping_sub(*begin) == 0xffff_ffff;
    let explained = |line: &String| match located(line) {
        // The same in the whole file, 2 bytes longer; or 4 GB, which hold what is elsewhere, too.
        Some(one) => {
            wrapped(&one)
                || theirs
                    .iter()
                    .filter_map(|line| located(line))
                    .any(|(head, begin, end)| (&head, begin) == (&one.0, one.1) && one.2.wrapping_add(2) == end)
        }
        // Nowhere, since the address is in the last 2 bytes.
        None => theirs.iter().filter_map(|line| located(line)).any(|(head, _, end)| {
            let nowhere = line.ends_with("nowhere at this address");
            nowhere && who(&head) == who(line) && end - address <= 2
        }),
    };
    // What the whole file has and the split one has not is told by the same variable's line there.
    let told = |line: &String| split.iter().any(|other| who(other) == who(line));
    ours.iter().all(explained) && theirs.iter().all(told)
}

fn twins(words: &[&str], split: &[&Path]) -> ExitCode {
    let [file, other, count, names] = words else { panic!("FILE OTHER COUNT NAMES") };
    let open =
        |path: &str, split: &[&Path]| Program::open(Path::new(path), split, None).unwrap_or_else(|wrong| panic!("{wrong}"));
    let (program, whole) = (open(file, split), open(other, &[]));
    let mut counts = Counts::default();
    let addresses = addresses(file, count.parse().unwrap());
    let llvm = symbolizer(names, &addresses);
    if llvm.len() != addresses.len() {
        counts.differ(format!("llvm-symbolizer: {} answers for {}", llvm.len(), addresses.len()));
    }
    for (address, llvm) in addresses.into_iter().zip(llvm) {
        let (ours, theirs) = (scope::at(&program, address), scope::at(&whole, address));
        let stacks = stacks(&ours);
        // llvm-symbolizer 14 adds a split unit's offset pairs to 0, and not to the skeleton's base address.
        if passes_over(&ours, &llvm) {
            counts.add("where llvm-symbolizer passes over an inlined routine");
        } else if !agree(&stacks, &llvm) {
            counts.differ(format!("{address:#x}: {stacks:?}, llvm-symbolizer {llvm:?}"));
        }
        counts.add("addresses");
        counts.add(if ours.stacks.is_empty() { "not there" } else { "with a routine" });
        ours.wrongs.iter().for_each(|wrong| counts.differ(format!("{address:#x}: {wrong}")));
        let mut lines = [placeless(address, &ours), placeless(address, &theirs)];
        let all = lines[0].len();
        lines.iter_mut().for_each(|lines| lines.sort());
        for _ in 0..all {
            counts.add("lines");
        }
        let [ours, theirs] = lines;
        let of_version_4 = || program.main.units.iter().all(|unit| unit.context.encoding.version == 4);
        if ours != theirs && of_version_4() && short_lengths(address, &ours, &theirs) {
            counts.add("with gcc's short lengths");
            continue;
        }
        if ours != theirs {
            let only = |here: &[String], there: &[String]| {
                here.iter().filter(|line| !there.contains(line)).cloned().collect::<Vec<_>>()
            };
            counts.differ(format!("{address:#x}: split {:?}, whole {:?}", only(&ours, &theirs), only(&theirs, &ours)));
        }
    }
    counts.finish(file)
}

fn main() -> ExitCode {
    let words = std::env::args().skip(1).collect::<Vec<_>>();
    let words = command::sorted(&words).unwrap_or_else(|wrong| panic!("{wrong}"));
    match words.plain[..] {
        ["twins", ref rest @ ..] => twins(rest, &words.split),
        ref rest => compare(rest, &words.split),
    }
}
