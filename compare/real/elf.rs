//! The sections of an ELF file by name, and its byte order.

use std::collections::BTreeMap;

#[derive(Default)]
pub struct Elf {
    pub big_endian: bool,
    /// The size of an address in the file's own headers.
    pub address_size: u8,
    pub sections: BTreeMap<String, Vec<u8>>,
}

/// A section without bytes in the file.
const NOBITS: u64 = 8;

struct Reader<'a> {
    bytes: &'a [u8],
    big_endian: bool,
}

impl Reader<'_> {
    fn number(&self, at: usize, width: usize) -> Option<u64> {
        let part = self.bytes.get(at..at.checked_add(width)?)?;
        let add = |sum: u64, &byte: &u8| sum << 8 | u64::from(byte);
        Some(if self.big_endian {
            part.iter().fold(0, add)
        } else {
            part.iter().rev().fold(0, add)
        })
    }
}

/// Reads a file; none when it is no ELF file or is cut.
pub fn read(bytes: &[u8]) -> Option<Elf> {
    if bytes.get(..4)? != b"\x7fELF" {
        return None;
    }
    let (wide, big_endian) = (bytes.get(4)? == &2, bytes.get(5)? == &2);
    let r = Reader { bytes, big_endian };
    let word = if wide { 8 } else { 4 };
    let headers = r.number(if wide { 0x28 } else { 0x20 }, word)? as usize;
    let counts = if wide { 0x3a } else { 0x2e };
    let [size, count, names] = [0, 2, 4].map(|at| r.number(counts + at, 2));
    let (size, count, names) = (size? as usize, count? as usize, names? as usize);
    let section = |index: usize| {
        let at = headers + index * size;
        let [offset, length] = if wide { [0x18, 0x20] } else { [0x10, 0x14] };
        let kind = r.number(at + 4, 4)?;
        let start = r.number(at + offset, word)? as usize;
        let length = if kind == NOBITS { 0 } else { r.number(at + length, word)? as usize };
        Some((r.number(at, 4)? as usize, bytes.get(start..start.checked_add(length)?)?))
    };
    let (_, names) = section(names)?;
    let mut elf = Elf { big_endian, address_size: word as u8, ..Elf::default() };
    for index in 1..count {
        let (name, data) = section(index)?;
        let name: Vec<u8> = names[name..].iter().copied().take_while(|&byte| byte != 0).collect();
        elf.sections.insert(String::from_utf8(name).ok()?, data.to_vec());
    }
    Some(elf)
}
