//! Answers as text.

use crate::lists::Place;
use crate::operations::{self, hex};
use crate::scope::{Answer, Held, Lives, Routine, Source, Variable};
use crate::unit::Unit;
use std::fmt::Write;
use yeltzarun::Range;

pub fn range(range: Range) -> String {
    format!("{:#x} to {:#x}", range.begin, range.end)
}

pub fn place(place: Place) -> String {
    format!("list {:#x} of {} [proved]", place.offset, place.section)
}

fn source(source: &Source) -> String {
    match source {
        Source::Attributes => "by DW_AT_low_pc and DW_AT_high_pc".into(),
        Source::Table => {
            "by DW_AT_low_pc and DW_AT_high_pc, through the address table [proved]".into()
        }
        Source::List(list) => format!("by {}", place(*list)),
    }
}

fn held(held: &Held) -> String {
    format!("{}, {}", range(held.range), source(&held.source))
}

/// Operations, and the bytes that they are read from.
pub fn expression(unit: &Unit, bytes: &'static [u8]) -> String {
    format!("{} [{}]", operations::text(unit, bytes), hex(bytes))
}

fn lives(variable: &Variable) -> Vec<String> {
    let unit = &variable.unit;
    match &variable.lives {
        Lives::List(list, found) if found.is_empty() => {
            vec![format!("nowhere at this address, by {}", place(*list))]
        }
        Lives::List(list, found) => found
            .iter()
            .map(|location| {
                let told = if location.expression.is_empty() {
                    "nowhere, by an entry without operations".to_string()
                } else {
                    expression(unit, location.expression)
                };
                format!("{told}, {}, by {}", range(location.range), place(*list))
            })
            .collect(),
        Lives::Expression([]) => vec!["nowhere, by an expression without operations".into()],
        Lives::Expression(bytes) => {
            vec![format!("{}, at every address, by no list", expression(unit, bytes))]
        }
        Lives::Constant(constant) => vec![format!("constant {constant}, by no list")],
        Lives::Declared => vec!["declared here, defined elsewhere".into()],
        Lives::Nowhere => vec!["nowhere, it has no location".into()],
        Lives::Wrong(wrong) => vec![wrong.to_string()],
    }
}

pub fn name(name: &Option<String>) -> &str {
    name.as_deref().unwrap_or("(without a name)")
}

fn routine(text: &mut String, routine: &Routine, into: Option<&Routine>) {
    let linkage = match &routine.linkage_name {
        Some(linkage) if Some(linkage) != routine.name.as_ref() => format!(" ({linkage})"),
        _ => String::new(),
    };
    let line = match &routine.line {
        Some((Some(file), line)) => format!("{file}:{line}"),
        Some((None, line)) => format!("line {line}"),
        None => String::new(),
    };
    let how = match into {
        Some(outer) => {
            let at = if line.is_empty() { line } else { format!(" at {line}") };
            format!(", inlined into {}{at}", name(&outer.name))
        }
        None if line.is_empty() => line,
        None => format!(", declared at {line}"),
    };
    let at = routine.entry.unit().section_offset(routine.entry.offset);
    let _ = writeln!(text, "routine {}{linkage}{how} (entry {at:#x})", name(&routine.name));
    let _ = writeln!(text, "    {}", held(&routine.held));
    for variable in routine.frame_base.iter().chain(&routine.variables) {
        let head = match variable.kind {
            "frame base" => "frame base".to_string(),
            kind => format!("{kind} {}", name(&variable.name)),
        };
        for line in lives(variable) {
            let _ = writeln!(text, "    {head}: {line}");
        }
    }
}

fn unit(unit: &Unit) -> String {
    let version = unit.context.encoding.version;
    format!("{} (DWARF {version}, unit {:#x})", name(&unit.name()), unit.offset())
}

/// What `at` prints for an address.
pub fn answer(address: u64, answer: &Answer) -> String {
    let mut text = String::new();
    for stack in &answer.stacks {
        let _ = writeln!(text, "{address:#x} in {}", unit(&stack.unit));
        for (at, one) in stack.routines.iter().enumerate() {
            let into = if one.inlined { stack.routines.get(at + 1) } else { None };
            routine(&mut text, one, into);
        }
    }
    if answer.stacks.is_empty() {
        let _ = match answer.wrongs.is_empty() {
            true => writeln!(text, "{address:#x}: not there, no routine holds it"),
            false => {
                writeln!(text, "{address:#x}: no routine was found, but not all could be read")
            }
        };
    }
    for (bare, why) in &answer.bare {
        let _ = writeln!(text, "{address:#x} in {}, but in none of its routines", unit(bare));
        let _ = writeln!(text, "    {}", held(why));
    }
    text
}
