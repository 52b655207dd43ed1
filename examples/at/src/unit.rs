//! Units and their entries, as gimli reads them, with what their lists are read with.

use crate::file::File;
use crate::lists::Context;
use crate::wrong::{Outcome, Wrong};
use crate::{Reader, Value};
use gimli::{
    Abbreviations, DebugAbbrev, DebugInfo, DebugInfoOffset, DebugLine, DebugLineOffset,
    DebugLineStr, DebugStr, DebugStrOffsets, DebugStrOffsetsBase, DebugTypes, DwAt, DwTag,
    DwarfFileType, UnitHeader, UnitOffset, UnitSectionOffset, UnitType,
};
use std::cell::OnceCell;
use std::rc::Rc;
use yeltzarun::KindTable;

/// The sections of a main file, of a .dwo file, or of a unit in a .dwp file.
pub struct Sections {
    pub path: String,
    pub machine: object::Architecture,
    pub endian: gimli::RunTimeEndian,
    pub file_type: DwarfFileType,
    pub info: &'static [u8],
    pub types: &'static [u8],
    pub abbrev: &'static [u8],
    pub str: &'static [u8],
    pub line_str: &'static [u8],
    pub str_offsets: &'static [u8],
    pub line: &'static [u8],
    pub addr: Option<&'static [u8]>,
    pub ranges: Option<&'static [u8]>,
    pub rnglists: Option<&'static [u8]>,
    pub loc: Option<&'static [u8]>,
    pub loclists: Option<&'static [u8]>,
    pub kinds: &'static KindTable,
}

impl Sections {
    /// The sections of a file; those of a split one have names of their own.
    pub fn of(
        file: &File,
        file_type: DwarfFileType,
        kinds: &'static KindTable,
    ) -> Outcome<Sections> {
        let section = |name: &str| match file_type {
            DwarfFileType::Main => file.section(name),
            DwarfFileType::Dwo => file.section(&format!("{name}.dwo")),
        };
        let bytes = |name: &str| section(name).map(|bytes| bytes.unwrap_or(&[]));
        Ok(Sections {
            path: file.path.clone(),
            machine: file.machine(),
            endian: file.endian(),
            file_type,
            info: bytes(".debug_info")?,
            types: bytes(".debug_types")?,
            abbrev: bytes(".debug_abbrev")?,
            str: bytes(".debug_str")?,
            line_str: bytes(".debug_line_str")?,
            str_offsets: bytes(".debug_str_offsets")?,
            line: bytes(".debug_line")?,
            // A split file has neither of these; it uses those of the main file.
            addr: file.section(".debug_addr")?,
            ranges: file.section(".debug_ranges")?,
            rnglists: section(".debug_rnglists")?,
            loc: section(".debug_loc")?,
            loclists: section(".debug_loclists")?,
            kinds,
        })
    }

    pub fn reader(&self, bytes: &'static [u8]) -> Reader {
        Reader::new(bytes, self.endian)
    }

    /// The headers of the units in `.debug_info`, and of those in `.debug_types`.
    pub fn headers(&self) -> Outcome<Vec<UnitHeader<Reader>>> {
        let parse = || Wrong::parse(&self.path);
        let mut headers = Vec::new();
        let mut units = DebugInfo::from(self.reader(self.info)).units();
        while let Some(header) = units.next().map_err(parse())? {
            headers.push(header);
        }
        let mut units = DebugTypes::from(self.reader(self.types)).units();
        while let Some(header) = units.next().map_err(parse())? {
            headers.push(header);
        }
        Ok(headers)
    }
}

/// What stands for a name that is in a supplementary file.
pub const SUPPLEMENTARY: &str = "(named in the supplementary file, which is not read)";

/// An entry in the order of the unit.
#[derive(Debug, Clone, Copy)]
pub struct Node {
    pub offset: UnitOffset,
    pub tag: DwTag,
    /// The place behind the last entry below this one.
    pub end: usize,
}

/// A unit.
pub struct Unit {
    pub sections: Rc<Sections>,
    pub header: UnitHeader<Reader>,
    abbreviations: Abbreviations,
    /// The root entry's attributes.
    root: Vec<(DwAt, Value)>,
    str_offsets_base: Option<DebugStrOffsetsBase>,
    /// The skeleton of a split unit.
    skeleton: Option<Rc<Unit>>,
    pub context: Context,
    nodes: OnceCell<Outcome<Vec<Node>>>,
}

/// The place of a unit in its section.
pub fn unit_offset(header: &UnitHeader<Reader>) -> usize {
    match header.offset() {
        UnitSectionOffset::DebugInfoOffset(offset) => offset.0,
        UnitSectionOffset::DebugTypesOffset(offset) => offset.0,
    }
}

fn same_endian(endian: gimli::RunTimeEndian) -> yeltzarun::RunTimeEndian {
    match endian {
        gimli::RunTimeEndian::Little => yeltzarun::RunTimeEndian::Little,
        gimli::RunTimeEndian::Big => yeltzarun::RunTimeEndian::Big,
    }
}

fn same_encoding(encoding: gimli::Encoding) -> yeltzarun::Encoding {
    yeltzarun::Encoding {
        address_size: encoding.address_size,
        format: match encoding.format {
            gimli::Format::Dwarf32 => yeltzarun::Format::Dwarf32,
            gimli::Format::Dwarf64 => yeltzarun::Format::Dwarf64,
        },
        version: encoding.version,
    }
}

impl Unit {
    /// The unit of a header; a split one with the unit that is its skeleton.
    pub fn new(
        sections: &Rc<Sections>,
        header: UnitHeader<Reader>,
        skeleton: Option<&Rc<Unit>>,
    ) -> Outcome<Unit> {
        let place = format!("{}, unit {:#x}", sections.path, unit_offset(&header));
        let parse = || Wrong::parse(&place);
        let abbrev = DebugAbbrev::from(sections.reader(sections.abbrev));
        let abbreviations = header.abbreviations(&abbrev).map_err(parse())?;
        let mut root = Vec::new();
        {
            let mut cursor = header.entries(&abbreviations);
            cursor.next_dfs().map_err(parse())?;
            let entry = cursor.current().ok_or(gimli::Error::MissingUnitDie).map_err(parse())?;
            let mut attributes = entry.attrs();
            while let Some(attribute) = attributes.next().map_err(parse())? {
                root.push((attribute.name(), attribute.value()));
            }
        }
        let encoding = same_encoding(header.encoding());
        let split = sections.file_type == DwarfFileType::Dwo;
        let file_type =
            if split { yeltzarun::DwarfFileType::Dwo } else { yeltzarun::DwarfFileType::Main };
        // Only a split unit of version 5 has its bases where the standard says (7.28, 7.29).
        let behind_the_header = split && encoding.version >= 5;
        let mut context = Context {
            unit: place,
            encoding,
            endian: same_endian(sections.endian),
            file_type,
            base_address: Ok(None),
            addr_base: None,
            rnglists_base: behind_the_header.then(|| {
                yeltzarun::DebugRngListsBase::default_for_encoding_and_file(encoding, file_type).0
            }),
            loclists_base: behind_the_header.then(|| {
                yeltzarun::DebugLocListsBase::default_for_encoding_and_file(encoding, file_type).0
            }),
            ranges_base: None,
            addr: sections.addr,
            ranges: sections.ranges,
            rnglists: sections.rnglists,
            loc: sections.loc,
            loclists: sections.loclists,
            kinds: sections.kinds,
        };
        let mut str_offsets_base = split.then(|| {
            DebugStrOffsetsBase::default_for_encoding_and_file(
                header.encoding(),
                DwarfFileType::Dwo,
            )
        });
        if let Some(skeleton) = skeleton {
            context.base_address = skeleton.context.base_address.clone();
            context.addr_base = skeleton.context.addr_base;
            context.ranges_base = skeleton.context.ranges_base;
            context.addr = skeleton.context.addr;
            context.ranges = skeleton.context.ranges;
        }
        for (name, value) in &root {
            match (*name, value) {
                (gimli::DW_AT_addr_base, Value::DebugAddrBase(base))
                | (gimli::DW_AT_GNU_addr_base, Value::DebugAddrBase(base)) => {
                    context.addr_base = Some(base.0 as u64);
                }
                (gimli::DW_AT_rnglists_base, Value::DebugRngListsBase(base)) => {
                    context.rnglists_base = Some(base.0 as u64);
                }
                (gimli::DW_AT_GNU_ranges_base, Value::DebugRngListsBase(base)) => {
                    context.ranges_base = Some(base.0 as u64);
                }
                (gimli::DW_AT_loclists_base, Value::DebugLocListsBase(base)) => {
                    context.loclists_base = Some(base.0 as u64);
                }
                (gimli::DW_AT_str_offsets_base, Value::DebugStrOffsetsBase(base)) => {
                    str_offsets_base = Some(*base);
                }
                _ => {}
            }
        }
        let mut unit = Unit {
            sections: sections.clone(),
            header,
            abbreviations,
            root,
            str_offsets_base,
            skeleton: skeleton.cloned(),
            context,
            nodes: OnceCell::new(),
        };
        // An index into the address table needs the table's base, so this comes last.
        if let Some(value) = unit.root_value(gimli::DW_AT_low_pc) {
            let address = unit.context.address_of(&value);
            unit.context.base_address = address.map(|address| address.map(|(address, _)| address));
        }
        Ok(unit)
    }

    /// The attributes of the root entry.
    pub fn root(&self) -> &[(DwAt, Value)] {
        &self.root
    }

    /// An attribute of the root entry.
    pub fn root_value(&self, name: DwAt) -> Option<Value> {
        self.root.iter().find(|(attribute, _)| *attribute == name).map(|(_, value)| *value)
    }

    fn root_text(&self, name: DwAt) -> Option<String> {
        self.root_value(name).and_then(|value| self.text(&value))
    }

    /// The source file, as the unit names it.
    pub fn name(&self) -> Option<String> {
        self.root_text(gimli::DW_AT_name)
    }

    pub fn offset(&self) -> usize {
        unit_offset(&self.header)
    }

    /// Whether the unit has types alone.
    pub fn is_of_types(&self) -> bool {
        matches!(self.header.type_(), UnitType::Type { .. } | UnitType::SplitType { .. })
    }

    /// What a skeleton and its split unit have in common; none where the unit is neither.
    pub fn dwo_id(&self) -> Option<u64> {
        match self.header.type_() {
            UnitType::Skeleton(id) | UnitType::SplitCompilation(id) => Some(id.0),
            _ => match self.root_value(gimli::DW_AT_GNU_dwo_id) {
                Some(Value::DwoId(id)) => Some(id.0),
                _ => None,
            },
        }
    }

    /// The path of the split file, where the unit is a skeleton.
    pub fn dwo_path(&self) -> Option<std::path::PathBuf> {
        let name = self
            .root_text(gimli::DW_AT_dwo_name)
            .or_else(|| self.root_text(gimli::DW_AT_GNU_dwo_name))?;
        let folder = self.root_text(gimli::DW_AT_comp_dir).unwrap_or_default();
        Some(std::path::Path::new(&folder).join(name))
    }

    /// The text of an attribute's value; none where it has none or where it can't be read.
    pub fn text(&self, value: &Value) -> Option<String> {
        let s = &self.sections;
        let debug_str = DebugStr::from(s.reader(s.str));
        let bytes = match value {
            Value::String(bytes) => *bytes,
            Value::DebugStrRef(offset) => debug_str.get_str(*offset).ok()?,
            Value::DebugLineStrRef(offset) => {
                DebugLineStr::from(s.reader(s.line_str)).get_str(*offset).ok()?
            }
            Value::DebugStrOffsetsIndex(index) => {
                let offsets = DebugStrOffsets::from(s.reader(s.str_offsets));
                let base = self.str_offsets_base?;
                let offset = offsets.get_str_offset(self.header.format(), base, *index).ok()?;
                debug_str.get_str(offset).ok()?
            }
            Value::DebugStrRefSup(_) => return Some(SUPPLEMENTARY.into()),
            _ => return None,
        };
        // What would move the cursor or end the line is not printed as it is.
        Some(bytes.to_string_lossy().chars().flat_map(printed).collect())
    }

    /// The name of a file by its number in the unit's line table, which a split unit shares with its
    /// skeleton.
    pub fn file_name(&self, number: u64) -> Option<String> {
        let Some(Value::DebugLineRef(DebugLineOffset(offset))) =
            self.root_value(gimli::DW_AT_stmt_list)
        else {
            return self.skeleton.as_ref()?.file_name(number);
        };
        let line = DebugLine::from(self.sections.reader(self.sections.line));
        let size = self.header.address_size();
        let program = line.program(DebugLineOffset(offset), size, None, None).ok()?;
        self.text(&program.header().file(number)?.path_name())
    }

    /// The entries in their order.
    pub fn nodes(&self) -> Outcome<&[Node]> {
        let nodes = self.nodes.get_or_init(|| self.read_nodes());
        nodes.as_deref().map_err(Wrong::clone)
    }

    fn read_nodes(&self) -> Outcome<Vec<Node>> {
        let parse = || Wrong::parse(&self.context.unit);
        let mut cursor = self.header.entries(&self.abbreviations);
        let (mut nodes, mut depth, mut open) =
            (Vec::<Node>::new(), 0, Vec::<(isize, usize)>::new());
        while let Some((delta, entry)) = cursor.next_dfs().map_err(parse())? {
            depth += delta;
            while let Some(&(above, at)) = open.last().filter(|(above, _)| *above >= depth) {
                debug_assert!(above >= depth);
                nodes[at].end = nodes.len();
                open.pop();
            }
            open.push((depth, nodes.len()));
            nodes.push(Node { offset: entry.offset(), tag: entry.tag(), end: 0 });
        }
        let all = nodes.len();
        open.into_iter().for_each(|(_, at)| nodes[at].end = all);
        Ok(nodes)
    }

    /// The attributes of an entry.
    pub fn attributes(&self, offset: UnitOffset) -> Outcome<Vec<(DwAt, Value)>> {
        let parse = || Wrong::parse(&self.context.unit);
        let entry = self.header.entry(&self.abbreviations, offset).map_err(parse())?;
        let mut attributes = Vec::new();
        let mut walk = entry.attrs();
        while let Some(attribute) = walk.next().map_err(parse())? {
            attributes.push((attribute.name(), attribute.value()));
        }
        Ok(attributes)
    }

    /// Where an entry stands in its section.
    pub fn section_offset(&self, offset: UnitOffset) -> usize {
        self.offset() + offset.0
    }

    /// The entry's place in this unit, where a reference into the section lies in it.
    pub fn own(&self, offset: DebugInfoOffset) -> Option<UnitOffset> {
        offset.to_unit_offset(&self.header)
    }
}

fn printed(c: char) -> impl Iterator<Item = char> {
    let escaped = c.is_control();
    let plain = (!escaped).then_some(c);
    plain.into_iter().chain(escaped.then(|| c.escape_default()).into_iter().flatten())
}
