//! Every list that an attribute names, with the entry that names it.

use crate::lists::Numbered;
use crate::program::Program;
use crate::text;
use crate::unit::Unit;
use crate::wrong::{FOUND, NOT_THERE, Outcome, Wrong};
use crate::{LEGEND, Value};
use std::fmt::Write;
use yeltzarun::KindTable;

/// The lists of a program, and what could not be read.
#[derive(Default)]
pub struct Listing {
    pub text: String,
    pub lists: usize,
    pub wrongs: Vec<Wrong>,
}

impl Listing {
    pub fn status(&self) -> u8 {
        let found = if self.lists == 0 { NOT_THERE } else { FOUND };
        self.wrongs.iter().map(Wrong::status).max().unwrap_or(found)
    }

    fn line(&mut self, indent: usize, line: &str) {
        let _ = writeln!(self.text, "{:indent$}{line}", "");
    }

    fn wrong(&mut self, wrong: Wrong) {
        self.line(4, &wrong.to_string());
        self.wrongs.push(wrong);
    }

    /// An entry of a list, and what it comes to.
    fn entry<T>(&mut self, entry: Numbered<T>, what: &str, told: impl FnOnce(T) -> String) {
        match entry.item {
            Ok(item) => {
                let padded = if entry.padded { ", padded" } else { "" };
                let told = item.map_or_else(|| format!("no {what}"), told);
                self.line(4, &format!("entry {}{padded}: {told}", entry.number));
            }
            Err(wrong) => self.wrong(wrong),
        }
    }

    fn unit(&mut self, unit: &Unit) -> Outcome<()> {
        let context = &unit.context;
        let number = |number: &Option<u64>| match number {
            Some(number) => format!("{number:#x}"),
            None => "none".into(),
        };
        let split = match context.file_type {
            yeltzarun::DwarfFileType::Main => "",
            yeltzarun::DwarfFileType::Dwo => ", split",
        };
        let own_codes = context.encoding.version < 5 || *context.kinds == KindTable::DWARF;
        let kinds = if own_codes { "" } else { " by a table of kind numbers" };
        let base_address = match &context.base_address {
            Ok(base_address) => number(base_address),
            Err(wrong) => wrong.to_string(),
        };
        let heading = format!(
            "unit {:#x} {}: DWARF {}, addresses of {} bytes{}{split}, base address {base_address}, \
             address table {}, range lists {}{kinds}, location lists {}",
            unit.offset(),
            text::name(&unit.name()),
            context.encoding.version,
            context.encoding.address_size,
            match context.encoding.format {
                yeltzarun::Format::Dwarf32 => "",
                yeltzarun::Format::Dwarf64 => ", 64-bit format",
            },
            number(&context.addr_base),
            number(if context.encoding.version < 5 {
                &context.ranges_base
            } else {
                &context.rnglists_base
            }),
            number(&context.loclists_base),
        );
        let mut told = false;
        for node in unit.nodes()? {
            let attributes = unit.attributes(node.offset)?;
            for (attribute, value) in &attributes {
                if !names_a_list(value) {
                    continue;
                }
                if !told {
                    self.line(0, &heading);
                    told = true;
                }
                self.lists += 1;
                let own_name = attributes.iter().find(|(name, _)| *name == gimli::DW_AT_name);
                let own_name = own_name.and_then(|(_, value)| unit.text(value));
                let space = if own_name.is_some() { " " } else { "" };
                let who = format!(
                    "entry {:#x} {}{space}{}, {attribute}",
                    unit.section_offset(node.offset),
                    node.tag,
                    own_name.unwrap_or_default(),
                );
                self.list(unit, &who, value);
            }
        }
        Ok(())
    }

    fn list(&mut self, unit: &Unit, who: &str, value: &Value) {
        let context = &unit.context;
        let places = [context.range_list(value), context.location_list(value)];
        let [ranges, locations] = match places {
            [Err(wrong), _] | [_, Err(wrong)] => {
                self.line(2, who);
                return self.wrong(wrong);
            }
            [Ok(ranges), Ok(locations)] => [ranges, locations],
        };
        if let Some(place) = ranges {
            self.line(2, &format!("{who}: {}", text::place(place)));
            match context.ranges(place) {
                Ok(ranges) => {
                    ranges.into_iter().for_each(|entry| self.entry(entry, "range", text::range))
                }
                Err(wrong) => self.wrong(wrong),
            }
        }
        if let Some(place) = locations {
            self.line(2, &format!("{who}: {}", text::place(place)));
            match context.locations(place) {
                Ok(locations) => locations.into_iter().for_each(|entry| {
                    self.entry(entry, "location", |location| {
                        let told = text::expression(unit, location.expression);
                        format!("{}: {told}", text::range(location.range))
                    })
                }),
                Err(wrong) => self.wrong(wrong),
            }
        }
    }
}

fn names_a_list(value: &Value) -> bool {
    matches!(
        value,
        Value::RangeListsRef(_)
            | Value::DebugRngListsIndex(_)
            | Value::LocationListsRef(_)
            | Value::DebugLocListsIndex(_)
    )
}

/// What `lists` prints for a program.
pub fn lists(program: &Program) -> Listing {
    let mut listing = Listing::default();
    for unit in program.main.units.iter().chain(&program.types) {
        let mut both = || -> Outcome<()> {
            listing.unit(unit)?;
            if unit.dwo_path().is_some() {
                listing.unit(&program.whole(unit)?.unit)?;
            }
            Ok(())
        };
        if let Err(wrong) = both() {
            listing.wrong(wrong);
        }
    }
    if listing.lists == 0 && listing.wrongs.is_empty() {
        listing.line(0, "no attribute names a list");
    }
    listing.text.push_str(LEGEND);
    listing
}
