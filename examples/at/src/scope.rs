//! The routine that holds an address, the inlined ones in it, and where their values live.

use crate::lists::{Location, Place};
use crate::program::{Member, Program};
use crate::unit::{Node, SUPPLEMENTARY, Unit};
use crate::wrong::{Outcome, Wrong};
use crate::{Reader, Value};
use gimli::{DwAt, UnitOffset};
use std::collections::HashSet;
use std::rc::Rc;
use yeltzarun::{Range, ReaderAddress};

/// What tells that an entry holds an address.
#[derive(Debug, Clone, PartialEq, Eq)]
pub enum Source {
    /// DW_AT_low_pc and DW_AT_high_pc, as they are written.
    Attributes,
    /// The same, and at least one of them is an index into the address table.
    Table,
    /// DW_AT_ranges.
    List(Place),
}

/// The range that holds the address, and how it was told.
#[derive(Debug, Clone, PartialEq, Eq)]
pub struct Held {
    pub range: Range,
    pub source: Source,
}

/// Where a value lives.
#[derive(Debug, Clone)]
pub enum Lives {
    /// By a list: the locations at the address. Where there is none the value is nowhere.
    List(Place, Vec<Location>),
    /// By one expression for all addresses.
    Expression(&'static [u8]),
    /// It is a constant.
    Constant(String),
    /// It is declared here and defined elsewhere.
    Declared,
    /// No attribute gives a location.
    Nowhere,
    /// Its list can't be read.
    Wrong(Wrong),
}

/// An entry of a unit that operations and names are told with.
#[derive(Clone)]
pub struct Entry {
    pub member: Member,
    pub offset: UnitOffset,
}

/// A parameter or a variable.
pub struct Variable {
    pub kind: &'static str,
    pub name: Option<String>,
    pub entry: Entry,
    pub lives: Lives,
    /// The unit that the expression is of.
    pub unit: Rc<Unit>,
}

/// A routine, or the inlined copy of one.
pub struct Routine {
    pub entry: Entry,
    pub inlined: bool,
    pub name: Option<String>,
    pub linkage_name: Option<String>,
    /// Where it is declared, or where an inlined one is called.
    pub line: Option<(Option<String>, u64)>,
    pub held: Held,
    pub frame_base: Option<Variable>,
    pub variables: Vec<Variable>,
}

/// A routine that holds the address, and the inlined ones in it, the innermost first.
pub struct Stack {
    pub unit: Rc<Unit>,
    pub routines: Vec<Routine>,
}

/// All that was found for an address.
#[derive(Default)]
pub struct Answer {
    pub stacks: Vec<Stack>,
    /// Units that hold the address without having a routine there.
    pub bare: Vec<(Rc<Unit>, Held)>,
    /// What was met on the way and can't be read. What the answer lacks may stand there.
    pub wrongs: Vec<Wrong>,
}

impl Answer {
    pub fn status(&self) -> u8 {
        let found =
            if self.stacks.is_empty() { crate::wrong::NOT_THERE } else { crate::wrong::FOUND };
        self.wrongs.iter().map(Wrong::status).max().unwrap_or(found)
    }
}

/// An entry and those that it is a copy or the completion of, with their attributes.
type Chain = Vec<(Entry, Vec<(DwAt, Value)>)>;
/// A part of it.
type Link = [(Entry, Vec<(DwAt, Value)>)];

/// The number of references that are followed from an entry to the one with its name.
const REFERENCES: usize = 16;

impl Entry {
    pub fn unit(&self) -> &Rc<Unit> {
        &self.member.unit
    }

    fn attributes(&self) -> Outcome<Vec<(DwAt, Value)>> {
        self.unit().attributes(self.offset)
    }

    /// The entry that a value refers to.
    fn referred(&self, value: &Value) -> Option<Entry> {
        match value {
            Value::UnitRef(offset) => Some(Entry { member: self.member.clone(), offset: *offset }),
            Value::DebugInfoRef(offset) => {
                let family = &self.member.family;
                let (unit, offset) = family.find(*offset)?;
                let member = Member { family: family.clone(), unit: unit.clone() };
                Some(Entry { member, offset })
            }
            _ => None,
        }
    }

    /// The entry, then those that it is a copy or the completion of.
    fn origins(&self) -> Outcome<Chain> {
        let mut chain = Vec::new();
        let mut next = Some(self.clone());
        while let Some(entry) = next.take().filter(|_| chain.len() < REFERENCES) {
            let attributes = entry.attributes()?;
            for name in [gimli::DW_AT_abstract_origin, gimli::DW_AT_specification] {
                if let (None, Some(value)) = (&next, value_of(&attributes, name)) {
                    next = entry.referred(&value);
                }
            }
            chain.push((entry, attributes));
        }
        Ok(chain)
    }
}

fn value_of(attributes: &[(DwAt, Value)], name: DwAt) -> Option<Value> {
    attributes.iter().find(|(attribute, _)| *attribute == name).map(|(_, value)| *value)
}

/// The first of an entry and its origins that has an attribute.
fn first_of(chain: &Link, name: DwAt) -> Option<(&Entry, Value)> {
    chain.iter().find_map(|(entry, attributes)| Some((entry, value_of(attributes, name)?)))
}

fn name_of(chain: &Link, name: DwAt) -> Option<String> {
    if let Some((entry, value)) = first_of(chain, name) {
        return entry.unit().text(&value);
    }
    let (_, attributes) = chain.last()?;
    let origin = value_of(attributes, gimli::DW_AT_abstract_origin)
        .or_else(|| value_of(attributes, gimli::DW_AT_specification));
    let elsewhere = matches!(origin, Some(Value::DebugInfoRefSup(_)));
    (elsewhere && name == gimli::DW_AT_name).then(|| SUPPLEMENTARY.into())
}

fn number(value: &Value) -> Option<u64> {
    match value {
        Value::FileIndex(number) => Some(*number),
        value => value.udata_value(),
    }
}

fn line_of(chain: &Link, file: DwAt, line: DwAt) -> Option<(Option<String>, u64)> {
    let (_, value) = first_of(chain, line)?;
    let line = number(&value)?;
    let name =
        first_of(chain, file).and_then(|(entry, value)| entry.unit().file_name(number(&value)?));
    Some((name, line))
}

/// Whether the attributes give an entry any addresses.
fn has_addresses(attributes: &[(DwAt, Value)]) -> bool {
    value_of(attributes, gimli::DW_AT_ranges).is_some()
        || (value_of(attributes, gimli::DW_AT_low_pc).is_some()
            && value_of(attributes, gimli::DW_AT_high_pc).is_some())
}

/// The range of an entry that holds an address.
fn held(unit: &Unit, attributes: &[(DwAt, Value)], address: u64) -> Outcome<Option<Held>> {
    if let Some(value) = value_of(attributes, gimli::DW_AT_ranges) {
        if let Some(place) = unit.context.range_list(&value)? {
            let range = unit.context.range_at(place, address)?;
            return Ok(range.map(|range| Held { range, source: Source::List(place) }));
        }
    }
    let low = value_of(attributes, gimli::DW_AT_low_pc);
    let high = value_of(attributes, gimli::DW_AT_high_pc);
    let (Some(low), Some(high)) = (low, high) else { return Ok(None) };
    let Some((begin, from_table)) = unit.context.address_of(&low)? else { return Ok(None) };
    let size = unit.context.encoding.address_size;
    let (end, end_from_table) = match unit.context.address_of(&high)? {
        Some(end) => end,
        None => match high.udata_value() {
            Some(length) => (begin.wrapping_add_sized(length, size), false),
            None => return Ok(None),
        },
    };
    // Code that the linker removed stands at the tombstone.
    let removed = begin >= u64::min_tombstone(size);
    let source = if from_table || end_from_table { Source::Table } else { Source::Attributes };
    let holds = !removed && begin <= address && address < end;
    Ok(holds.then_some(Held { range: Range { begin, end }, source }))
}

/// Finds what holds an address in all of a program.
pub fn at(program: &Program, address: u64) -> Answer {
    let mut answer = Answer::default();
    for unit in &program.main.units {
        if let Err(wrong) = in_unit(program, unit, address, &mut answer) {
            answer.wrongs.push(wrong);
        }
    }
    let mut seen = HashSet::new();
    answer.wrongs.retain(|wrong| seen.insert(wrong.clone()));
    answer
}

fn in_unit(program: &Program, unit: &Rc<Unit>, address: u64, answer: &mut Answer) -> Outcome<()> {
    if unit.is_of_types() {
        return Ok(());
    }
    let unit_held = held(unit, unit.root(), address)?;
    // A unit with addresses has those of its routines among them.
    if unit_held.is_none() && has_addresses(unit.root()) {
        return Ok(());
    }
    // Without addresses it may have routines all the same, unless it is a skeleton, which has none.
    if unit_held.is_none() && unit.dwo_path().is_some() {
        return Ok(());
    }
    let member = program.whole(unit)?;
    let found = answer.stacks.len();
    let unit = member.unit.clone();
    let nodes = unit.nodes()?;
    for (at, node) in nodes.iter().enumerate() {
        if node.tag != gimli::DW_TAG_subprogram {
            continue;
        }
        let attributes = unit.attributes(node.offset)?;
        match held(&unit, &attributes, address) {
            Ok(None) => {}
            Ok(Some(held)) => {
                let routines = routines(&member, nodes, at, held, address, &mut answer.wrongs)?;
                answer.stacks.push(Stack { unit: unit.clone(), routines });
            }
            Err(wrong) => answer.wrongs.push(wrong),
        }
    }
    if let (true, Some(held)) = (answer.stacks.len() == found, unit_held) {
        answer.bare.push((unit, held));
    }
    Ok(())
}

/// The routine at a place and the inlined ones in it that hold the address, the innermost first.
fn routines(
    member: &Member,
    nodes: &[Node],
    at: usize,
    outer: Held,
    address: u64,
    wrongs: &mut Vec<Wrong>,
) -> Outcome<Vec<Routine>> {
    let unit = &member.unit;
    let entry = |at: usize| Entry { member: member.clone(), offset: nodes[at].offset };
    let mut found = vec![routine(entry(at), false, outer, address, wrongs)?];
    // The scopes that are open: where each ends, its routine, and where it begins.
    let mut open = vec![(nodes[at].end, 0, at)];
    let mut next = at + 1;
    loop {
        while let Some(&(end, place, begin)) = open.last() {
            if next < end {
                break;
            }
            open.pop();
            let absent = absent(&entry(begin), &nodes[begin..end], address)?;
            found[place].variables.extend(absent);
        }
        let Some(&(_, place, _)) = open.last() else { break };
        let node = nodes[next];
        let step = match node.tag {
            gimli::DW_TAG_formal_parameter | gimli::DW_TAG_variable | gimli::DW_TAG_constant => {
                found[place].variables.push(variable(entry(next), node.tag, address)?);
                node.end
            }
            gimli::DW_TAG_inlined_subroutine => {
                let attributes = unit.attributes(node.offset)?;
                match held(unit, &attributes, address) {
                    Ok(Some(held)) => {
                        open.push((node.end, found.len(), next));
                        found.push(routine(entry(next), true, held, address, wrongs)?);
                        next + 1
                    }
                    Ok(None) => node.end,
                    Err(wrong) => {
                        wrongs.push(wrong);
                        node.end
                    }
                }
            }
            gimli::DW_TAG_lexical_block
            | gimli::DW_TAG_try_block
            | gimli::DW_TAG_catch_block
            | gimli::DW_TAG_with_stmt => {
                let attributes = unit.attributes(node.offset)?;
                // A block without addresses has no code of its own; what stands in it is the
                // enclosing scope's.
                match held(unit, &attributes, address) {
                    Ok(None) if has_addresses(&attributes) => node.end,
                    Ok(_) => {
                        open.push((node.end, place, next));
                        next + 1
                    }
                    Err(wrong) => {
                        wrongs.push(wrong);
                        node.end
                    }
                }
            }
            // Types, calls, labels, and routines in this one, which are looked at by themselves.
            _ => node.end,
        };
        next = step;
    }
    for routine in &found {
        for variable in routine.variables.iter().chain(&routine.frame_base) {
            if let Lives::Wrong(wrong) = &variable.lives {
                wrongs.push(wrong.clone());
            }
        }
    }
    found.reverse();
    Ok(found)
}

fn routine(
    entry: Entry,
    inlined: bool,
    held: Held,
    address: u64,
    wrongs: &mut Vec<Wrong>,
) -> Outcome<Routine> {
    let chain = entry.origins()?;
    let linkage_name = name_of(&chain, gimli::DW_AT_linkage_name)
        .or_else(|| name_of(&chain, gimli::DW_AT_MIPS_linkage_name));
    let line = if inlined {
        line_of(&chain[..1], gimli::DW_AT_call_file, gimli::DW_AT_call_line)
    } else {
        line_of(&chain, gimli::DW_AT_decl_file, gimli::DW_AT_decl_line)
    };
    let frame_base = first_of(&chain, gimli::DW_AT_frame_base).map(|(owner, value)| {
        let unit = owner.unit().clone();
        let lives = lives_by(&unit, &value, address);
        Variable { kind: "frame base", name: None, entry: entry.clone(), lives, unit }
    });
    if let Some(Variable { lives: Lives::Wrong(wrong), .. }) = &frame_base {
        wrongs.push(wrong.clone());
    }
    Ok(Routine {
        name: name_of(&chain, gimli::DW_AT_name),
        linkage_name,
        line,
        inlined,
        held,
        frame_base,
        variables: Vec::new(),
        entry,
    })
}

/// Where an attribute's value says that something lives.
fn lives_by(unit: &Unit, value: &Value, address: u64) -> Lives {
    if let Value::Exprloc(expression) = value {
        return Lives::Expression(expression.0.slice());
    }
    let by_list = |place: Place| Ok(Lives::List(place, unit.context.locations_at(place, address)?));
    match unit.context.location_list(value) {
        Ok(Some(place)) => by_list(place).unwrap_or_else(Lives::Wrong),
        Ok(None) => Lives::Wrong(Wrong::Unreadable(format!(
            "{}: a location of a form that is none of a location's",
            unit.context.unit
        ))),
        Err(wrong) => Lives::Wrong(wrong),
    }
}

fn constant(unit: &Unit, value: &Value) -> String {
    let bytes = |block: &Reader| format!("<{}>", crate::operations::hex(block.slice()));
    match value {
        Value::Block(block) => bytes(block),
        Value::Exprloc(expression) => bytes(&expression.0),
        Value::Data1(number) => format!("{number}"),
        Value::Data2(number) => format!("{number}"),
        Value::Data4(number) => format!("{number}"),
        Value::Data8(number) => format!("{number}"),
        Value::Sdata(number) => format!("{number}"),
        Value::Udata(number) => format!("{number}"),
        value => unit.text(value).map_or("of another form".into(), |text| format!("{text:?}")),
    }
}

fn variable(entry: Entry, tag: gimli::DwTag, address: u64) -> Outcome<Variable> {
    let kind = match tag {
        gimli::DW_TAG_formal_parameter => "parameter",
        gimli::DW_TAG_constant => "constant",
        _ => "variable",
    };
    let chain = entry.origins()?;
    let (unit, lives) = match first_of(&chain, gimli::DW_AT_location) {
        Some((owner, value)) => (owner.unit().clone(), lives_by(owner.unit(), &value, address)),
        None => match first_of(&chain, gimli::DW_AT_const_value) {
            Some((owner, value)) => {
                let constant = constant(owner.unit(), &value);
                (owner.unit().clone(), Lives::Constant(constant))
            }
            None => {
                let declared = matches!(
                    first_of(&chain, gimli::DW_AT_declaration),
                    Some((_, Value::Flag(true)))
                );
                let lives = if declared { Lives::Declared } else { Lives::Nowhere };
                (entry.unit().clone(), lives)
            }
        },
    };
    Ok(Variable { kind, name: name_of(&chain, gimli::DW_AT_name), lives, unit, entry })
}

/// The variables that the scope's abstract entry has and that have no copy in the scope: they were
/// removed from it, or live where the abstract entry says.
fn absent(scope: &Entry, nodes: &[Node], address: u64) -> Outcome<Vec<Variable>> {
    let attributes = scope.attributes()?;
    let Some(origin) = value_of(&attributes, gimli::DW_AT_abstract_origin)
        .and_then(|value| scope.referred(&value))
    else {
        return Ok(Vec::new());
    };
    let mut copied = HashSet::new();
    for node in nodes {
        if let gimli::DW_TAG_formal_parameter | gimli::DW_TAG_variable = node.tag {
            let entry = Entry { member: scope.member.clone(), offset: node.offset };
            let attributes = entry.attributes()?;
            let value = value_of(&attributes, gimli::DW_AT_abstract_origin);
            if let Some(origin) = value.and_then(|value| entry.referred(&value)) {
                copied.insert((origin.unit().offset(), origin.offset.0));
            }
        }
    }
    let abstract_nodes = origin.unit().nodes()?;
    let Ok(at) = abstract_nodes.binary_search_by_key(&origin.offset.0, |node| node.offset.0) else {
        return Ok(Vec::new());
    };
    let (mut next, end) = (at + 1, abstract_nodes[at].end);
    let mut absent = Vec::new();
    while next < end {
        let node = abstract_nodes[next];
        let key = (origin.unit().offset(), node.offset.0);
        if let gimli::DW_TAG_formal_parameter | gimli::DW_TAG_variable = node.tag {
            if !copied.contains(&key) {
                let entry = Entry { member: origin.member.clone(), offset: node.offset };
                absent.push(variable(entry, node.tag, address)?);
            }
        }
        next = node.end;
    }
    Ok(absent)
}
