//! A program's units, and the split units that its skeletons name.

use crate::file::File;
use crate::unit::{Sections, Unit};
use crate::wrong::{Outcome, Wrong};
use gimli::{DebugCuIndex, DwarfFileType, SectionId};
use std::cell::RefCell;
use std::collections::HashMap;
use std::path::Path;
use std::rc::Rc;
use yeltzarun::KindTable;

/// Units that stand in one section and may name each other's entries.
pub struct Family {
    pub units: Vec<Rc<Unit>>,
}

impl Family {
    /// The unit that an offset of `.debug_info` lies in, and the entry's place there.
    pub fn find(&self, offset: gimli::DebugInfoOffset) -> Option<(&Rc<Unit>, gimli::UnitOffset)> {
        let at = self.units.partition_point(|unit| unit.offset() <= offset.0).checked_sub(1)?;
        let unit = &self.units[at];
        Some((unit, unit.own(offset)?))
    }
}

/// A unit of a program among those that it may refer to.
#[derive(Clone)]
pub struct Member {
    pub family: Rc<Family>,
    pub unit: Rc<Unit>,
}

/// An ELF file with its split files.
pub struct Program {
    pub main: Rc<Family>,
    /// Type units in a section of their own.
    pub types: Vec<Rc<Unit>>,
    given: Vec<File>,
    split: RefCell<HashMap<usize, Outcome<Member>>>,
}

fn family(
    sections: &Rc<Sections>,
    skeleton: Option<&Rc<Unit>>,
) -> Outcome<(Family, Vec<Rc<Unit>>)> {
    let (mut units, mut types) = (Vec::new(), Vec::new());
    for header in sections.headers()? {
        let in_types = matches!(header.offset(), gimli::UnitSectionOffset::DebugTypesOffset(_));
        let unit = Rc::new(Unit::new(sections, header, skeleton)?);
        if in_types { &mut types } else { &mut units }.push(unit);
    }
    Ok((Family { units }, types))
}

impl Program {
    /// A file, the .dwo or .dwp files that were given with it, and where one was given the file with its
    /// compiler's codes for the kinds of range list entries.
    pub fn open(path: &Path, given: &[&Path], kinds: Option<&Path>) -> Outcome<Program> {
        let kinds = kinds.map_or(Ok(&KindTable::DWARF), kind_table)?;
        let file = File::open(path)?;
        let given = given.iter().map(|path| File::open(path)).collect::<Outcome<Vec<_>>>()?;
        Program::of(&file, given, kinds)
    }

    pub fn of(file: &File, given: Vec<File>, kinds: &'static KindTable) -> Outcome<Program> {
        let wrong = |what: String| Err(Wrong::Unreadable(format!("{}: {what}", file.path)));
        if !file.has(".debug_info") {
            if file.has(".debug_info.dwo") {
                return wrong("a split file: name the program, and this file with --split".into());
            }
            return wrong(match file.debug_link() {
                Some(name) => format!("there is no .debug_info; the file names {name} for it"),
                None => "there is no .debug_info; compile with -g".into(),
            });
        }
        if file.is_relocatable() {
            return wrong("an object that is not linked: its relocations are not applied".into());
        }
        let sections = Rc::new(Sections::of(file, DwarfFileType::Main, kinds)?);
        let (main, types) = family(&sections, None)?;
        Ok(Program { main: Rc::new(main), types, given, split: RefCell::default() })
    }

    /// The split unit of a skeleton; the unit itself where it is none.
    pub fn whole(&self, unit: &Rc<Unit>) -> Outcome<Member> {
        let Some(path) = unit.dwo_path() else {
            return Ok(Member { family: self.main.clone(), unit: unit.clone() });
        };
        if let Some(known) = self.split.borrow().get(&unit.offset()) {
            return known.clone();
        }
        let found = self.find_split(unit, &path);
        self.split.borrow_mut().insert(unit.offset(), found.clone());
        found
    }

    fn find_split(&self, skeleton: &Rc<Unit>, path: &Path) -> Outcome<Member> {
        let place = &skeleton.context.unit;
        let missing = |what: String| Err(Wrong::Missing(format!("{place}: {what}")));
        let Some(id) = skeleton.dwo_id() else {
            return missing("a skeleton without the id of its split unit".into());
        };
        for file in &self.given {
            if let Some(member) = split_of(file, skeleton, id)? {
                return Ok(member);
            }
        }
        if !self.given.is_empty() {
            return missing(format!("no given file has the split unit with the id {id:#018x}"));
        }
        if !path.exists() {
            return missing(format!(
                "there is no {}, which has the unit's entries; name it, or a .dwp file, with --split",
                path.display()
            ));
        }
        match split_of(&File::open(path)?, skeleton, id)? {
            Some(member) => Ok(member),
            None => missing(format!(
                "{} has no unit with the id {id:#018x}: it is of another build",
                path.display()
            )),
        }
    }
}

/// The table of a file.
fn kind_table(path: &Path) -> Outcome<&'static KindTable> {
    let name = path.display().to_string();
    let bytes = std::fs::read(path).map_err(Wrong::parse(&name))?;
    let what = format!("{name}: a table of kind numbers");
    Ok(Box::leak(Box::new(KindTable::load(&bytes).map_err(Wrong::refused(what))?)))
}

/// The unit with an id in a .dwo or .dwp file.
fn split_of(file: &File, skeleton: &Rc<Unit>, id: u64) -> Outcome<Option<Member>> {
    let mut sections = Sections::of(file, DwarfFileType::Dwo, skeleton.sections.kinds)?;
    if sections.endian != skeleton.sections.endian {
        let wrong = format!("{}: the byte order is not the program's", file.path);
        return Err(Wrong::Unreadable(wrong));
    }
    if let Some(index) = file.section(".debug_cu_index")? {
        let parse = || Wrong::parse(&file.path);
        let index = DebugCuIndex::from(sections.reader(index)).index().map_err(parse())?;
        let Some(row) = index.find(id) else { return Ok(None) };
        let parts = index.sections(row).map_err(parse())?.collect::<Vec<_>>();
        cut(&mut sections, &parts)
            .map_err(|what| Wrong::Unreadable(format!("{}: {what}", file.path)))?;
    }
    let (family, _) = family(&Rc::new(sections), Some(skeleton))?;
    let family = Rc::new(family);
    let unit = family.units.iter().find(|unit| unit.dwo_id() == Some(id)).cloned();
    Ok(unit.map(|unit| Member { family, unit }))
}

/// Of each section of a .dwp file the part that the index gives a unit.
fn cut(sections: &mut Sections, parts: &[gimli::UnitIndexSection]) -> Result<(), String> {
    let part = |id: SectionId, bytes: &'static [u8]| {
        let Some(part) = parts.iter().find(|part| part.section == id) else { return Ok(None) };
        let (begin, length) = (part.offset as usize, part.size as usize);
        let bytes = begin.checked_add(length).and_then(|end| bytes.get(begin..end));
        let name = id.dwo_name().unwrap_or("a section");
        bytes.map(Some).ok_or(format!("the index gives a part that is not in {name}"))
    };
    let s = sections;
    s.info = part(SectionId::DebugInfo, s.info)?.unwrap_or(&[]);
    s.types = part(SectionId::DebugTypes, s.types)?.unwrap_or(&[]);
    s.abbrev = part(SectionId::DebugAbbrev, s.abbrev)?.unwrap_or(&[]);
    s.line = part(SectionId::DebugLine, s.line)?.unwrap_or(&[]);
    s.str_offsets = part(SectionId::DebugStrOffsets, s.str_offsets)?.unwrap_or(&[]);
    s.loc = part(SectionId::DebugLoc, s.loc.unwrap_or(&[]))?;
    s.loclists = part(SectionId::DebugLocLists, s.loclists.unwrap_or(&[]))?;
    s.rnglists = part(SectionId::DebugRngLists, s.rnglists.unwrap_or(&[]))?;
    Ok(())
}
