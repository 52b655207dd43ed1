//! What llvm-dwarfdump and readelf print about lists, taken apart. Lines that
//! aren't understood are passed over: what isn't read here isn't compared, and
//! the table's counts show it.

use oracle::oracle_api::Form;

/// An entry as a dump shows it; parts it doesn't show are none.
#[derive(Debug, Clone, Default)]
pub struct Shown {
    pub place: Option<u64>,
    pub form: Option<Form>,
    /// The numbers of the raw entry.
    pub numbers: Vec<u64>,
    /// The addresses that it comes to.
    pub range: Option<(u64, u64)>,
    pub text: String,
}

/// A list as a dump shows it.
#[derive(Debug, Clone, Default)]
pub struct Dumped {
    pub start: u64,
    pub entries: Vec<Shown>,
    /// The place of its end mark.
    pub end: Option<u64>,
}

/// A list that an attribute points to.
#[derive(Debug, Clone)]
pub struct Pointed {
    pub ranges: bool,
    pub list: Dumped,
}

/// A unit of .debug_info: what its lists are read with, and these lists.
#[derive(Debug, Clone, Default)]
pub struct Unit {
    pub version: u16,
    pub address_size: u8,
    pub dwarf64: bool,
    pub low_pc: u64,
    pub addr_base: Option<u64>,
    pub ranges_base: u64,
    pub dwo_name: Option<String>,
    pub lists: Vec<Pointed>,
}

fn hex(text: &str) -> Option<u64> {
    u64::from_str_radix(text.trim().strip_prefix("0x")?, 16).ok()
}

/// The first number 0x.. of a text.
fn first_hex(text: &str) -> Option<u64> {
    let digits = &text[text.find("0x")? + 2..];
    let end = digits.find(|c: char| !c.is_ascii_hexdigit()).unwrap_or(digits.len());
    u64::from_str_radix(&digits[..end], 16).ok()
}

fn last_hex(text: &str) -> Option<u64> {
    first_hex(&text[text.rfind("0x")?..])
}

fn after<'a>(line: &'a str, name: &str) -> Option<&'a str> {
    Some(&line[line.find(name)? + name.len()..])
}

fn form(name: &str) -> Option<Form> {
    Some(match name {
        "base_addressx" => Form::BaseIndex,
        "startx_endx" => Form::StartEndIndex,
        "startx_length" => Form::StartLengthIndex,
        "offset_pair" => Form::OffsetPair,
        "default_location" => Form::Default,
        "base_address" => Form::Base,
        "start_end" => Form::StartEnd,
        "start_length" => Form::StartLength,
        _ => return None,
    })
}

/// `0x1, 0x2` as numbers.
fn numbers(text: &str) -> Option<Vec<u64>> {
    text.split(',').filter(|part| !part.trim().is_empty()).map(hex).collect()
}

/// `[0x1, 0x2): text`.
fn range(line: &str) -> Option<Shown> {
    let (pair, rest) = line.strip_prefix('[')?.split_once(')')?;
    let [begin, end] = numbers(pair)?[..] else { return None };
    let text = rest.trim_start_matches(':').trim().to_string();
    Some(Shown { range: Some((begin, end)), text, ..Shown::default() })
}

/// `DW_LLE_name (0x1, 0x2): text`, or a pair alone.
fn raw_location(line: &str) -> Option<Shown> {
    let (head, rest) = line.split_once('(')?;
    let (operands, rest) = rest.split_once(')')?;
    let form = match head.trim().strip_prefix("DW_LLE_") {
        Some(name) => Some(form(name)?),
        None if head.trim().is_empty() => None,
        None => return None,
    };
    let text = rest.trim_start_matches(':').trim().to_string();
    Some(Shown { form, numbers: numbers(operands)?, text, ..Shown::default() })
}

/// An attribute that points to a list: where, whether it holds ranges, and
/// whether the list is already over.
fn pointed(attribute: &str) -> Option<(Pointed, bool)> {
    let name = attribute.split_whitespace().next()?;
    let value = attribute.split_once('\t')?.1.trim();
    let ranges = name == "DW_AT_ranges";
    let value = value.split_once("list = ").map_or(value, |(_, rest)| rest);
    let value = value.trim_start_matches('(');
    let over = value.ends_with(')');
    let number = value.trim_end_matches(')').trim();
    let number = if ranges { number } else { number.strip_suffix(':')? };
    let list = Dumped { start: hex(number)?, ..Dumped::default() };
    Some((Pointed { ranges, list }, over))
}

/// The units that `llvm-dwarfdump -v --debug-info` prints.
pub fn units(dump: &str) -> Vec<Unit> {
    let mut units: Vec<Unit> = Vec::new();
    let (mut depth, mut open) = (0, false);
    for line in dump.lines() {
        let text = line.trim();
        if text.contains(" Unit: length = ") {
            let field = |name: &str| after(text, name).and_then(first_hex).unwrap_or(0);
            units.push(Unit {
                version: field(", version = ") as u16,
                address_size: field(", addr_size = ") as u8,
                dwarf64: text.contains("format = DWARF64"),
                ..Unit::default()
            });
            (depth, open) = (0, false);
            continue;
        }
        let Some(unit) = units.last_mut() else { continue };
        if line.starts_with("0x") && text.contains("DW_TAG_") {
            depth += 1;
            open = false;
        } else if text.starts_with("DW_AT_") {
            open = false;
            attribute(unit, text, depth == 1);
            if let Some((pointed, over)) = pointed(text) {
                unit.lists.push(pointed);
                open = !over;
            }
        } else if open {
            let shown = if text.starts_with('[') { range(text) } else { raw_location(text) };
            let Some(list) = unit.lists.last_mut() else { continue };
            match shown {
                Some(shown) => list.list.entries.push(shown),
                None => open = false,
            }
        }
    }
    units
}

/// What the attributes of a unit's first entry say about its lists.
fn attribute(unit: &mut Unit, text: &str, first: bool) {
    if !first {
        return;
    }
    let name = text.split_whitespace().next().unwrap_or("");
    match name {
        "DW_AT_low_pc" => unit.low_pc = last_hex(text).unwrap_or(0),
        "DW_AT_addr_base" | "DW_AT_GNU_addr_base" => unit.addr_base = last_hex(text),
        "DW_AT_GNU_ranges_base" => unit.ranges_base = last_hex(text).unwrap_or(0),
        "DW_AT_dwo_name" | "DW_AT_GNU_dwo_name" => {
            unit.dwo_name = text.rsplit('"').nth(1).map(str::to_string);
        }
        _ => {}
    }
}

/// The part of a dump about a section, which has a heading of its own.
pub fn part<'a>(dump: &'a str, section: &str) -> &'a str {
    let heading = format!("{section} contents:\n");
    let Some(rest) = after(dump, &format!("\n{heading}")) else { return "" };
    rest.find(" contents:\n").map_or(rest, |end| &rest[..end])
}

/// The lists that `llvm-dwarfdump -v` prints of a section; the forms differ
/// from section to section. A list that isn't printed to its end is left out.
pub fn lists(dump: &str, section: &str) -> Vec<Dumped> {
    let part = part(dump, section);
    match section.trim_end_matches(".dwo") {
        ".debug_ranges" => bare_ranges(part),
        ".debug_rnglists" => range_lists(part),
        _ => location_lists(part),
    }
}

/// `offset begin end` in hexadecimal digits; the offset is that of the list.
fn bare_ranges(part: &str) -> Vec<Dumped> {
    let digits = |word: &str| u64::from_str_radix(word, 16).ok();
    let (mut done, mut list) = (Vec::new(), Dumped::default());
    for line in part.lines() {
        let words: Vec<&str> = line.split_whitespace().collect();
        let Some(start) = words.first().and_then(|word| digits(word)) else { continue };
        list.start = start;
        if line.contains("<End of list>") {
            done.push(std::mem::take(&mut list));
        } else if let [_, begin, end] = words[..] {
            let (Some(begin), Some(end)) = (digits(begin), digits(end)) else { continue };
            list.entries.push(Shown { numbers: vec![begin, end], ..Shown::default() });
        }
    }
    done
}

/// `0x0000000c: [DW_RLE_name ]:  0x1, 0x2 => ..`.
fn range_lists(part: &str) -> Vec<Dumped> {
    let (mut done, mut list) = (Vec::new(), Dumped::default());
    for line in part.lines() {
        let Some((place, rest)) = line.split_once(": [DW_RLE_") else {
            list = Dumped::default();
            continue;
        };
        let (Some(place), Some((name, rest))) = (hex(place), rest.split_once(']')) else {
            continue;
        };
        if list.entries.is_empty() {
            list.start = place;
        }
        if name.trim() == "end_of_list" {
            list.end = Some(place);
            done.push(std::mem::take(&mut list));
            continue;
        }
        let operands = rest.trim_start_matches(':').split("=>").next().unwrap_or("");
        let (form, numbers) = (form(name.trim()), numbers(operands).unwrap_or_default());
        list.entries.push(Shown { place: Some(place), form, numbers, ..Shown::default() });
    }
    done
}

/// `0x00000000: ` and an entry on each line below, up to a blank line.
fn location_lists(part: &str) -> Vec<Dumped> {
    let mut done: Vec<Dumped> = Vec::new();
    let mut list: Option<Dumped> = None;
    for line in part.lines() {
        let text = line.trim();
        if let Some(start) = line.trim_end().strip_suffix(':').and_then(hex) {
            list = Some(Dumped { start, ..Dumped::default() });
        } else if text.is_empty() {
            done.extend(list.take());
        } else if let Some(open) = &mut list {
            if text.starts_with("DW_LLE_end_of_list") {
                continue;
            }
            if let Some(resolved) = text.strip_prefix("=> ") {
                if let (Some(entry), Some(shown)) = (open.entries.last_mut(), range(resolved)) {
                    entry.text = shown.text;
                }
            } else if let Some(shown) = raw_location(text) {
                open.entries.push(shown);
            } else {
                list = None;
            }
        }
    }
    done
}

/// The addresses that `llvm-dwarfdump --debug-addr` prints.
pub fn addresses(dump: &str) -> Vec<u64> {
    part(dump, ".debug_addr").lines().filter_map(hex).collect()
}

/// The lists that `readelf --debug-dump=Ranges,loc` prints of a section.
pub fn readelf(dump: &str, section: &str) -> Vec<Dumped> {
    let heading = format!("Contents of the {section} section");
    let Some(rest) = after(dump, &heading) else { return Vec::new() };
    let part = rest.find("Contents of the").map_or(rest, |end| &rest[..end]);
    let places = section != ".debug_ranges";
    let (mut done, mut list) = (Vec::new(), Dumped::default());
    let mut viewed = None;
    for line in part.lines() {
        let Some((place, rest)) = readelf_place(line, &mut viewed) else {
            if !line.trim().is_empty() {
                list = Dumped::default();
            }
            continue;
        };
        if rest.contains("location view pair") {
            continue;
        }
        if rest.contains("views at") {
            viewed = Some(place);
            continue;
        }
        if list.entries.is_empty() {
            list.start = place;
        }
        if rest.starts_with("<End of list>") {
            list.end = places.then_some(place);
            done.push(std::mem::take(&mut list));
            continue;
        }
        list.entries.push(readelf_entry(places.then_some(place), rest));
    }
    done
}

/// The place at a line's start, or that of the line before, which said only
/// whose views it shows.
fn readelf_place<'a>(line: &'a str, viewed: &mut Option<u64>) -> Option<(u64, &'a str)> {
    let text = line.trim();
    if let Some(place) = viewed.take() {
        return Some((place, text));
    }
    let (first, rest) = text.split_once(' ')?;
    if first.len() != 8 || !line.starts_with("    ") {
        return None;
    }
    Some((u64::from_str_radix(first, 16).ok()?, rest.trim()))
}

fn readelf_entry(place: Option<u64>, rest: &str) -> Shown {
    let mut words = rest.split_whitespace();
    let mut number = || u64::from_str_radix(words.next()?, 16).ok();
    let pair = number().zip(number());
    let base = rest.contains("(base address") || rest.contains("(index into");
    let range = if base { None } else { pair };
    let text = rest.find("DW_OP_").map_or("", |at| &rest[at..]).to_string();
    Shown { place, range, text, ..Shown::default() }
}
