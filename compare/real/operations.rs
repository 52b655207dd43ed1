//! The names of an expression's operations, to hold an expression's bytes
//! against the text that a dump prints for it.

/// What follows an operation's code.
#[derive(Clone, Copy)]
enum Operand {
    Bytes(usize),
    Address,
    Offset,
    Leb,
    /// A LEB128 length and as many bytes.
    Block,
    /// A length of one byte and as many bytes.
    ShortBlock,
}

use Operand::*;

fn operation(code: u8) -> Option<(String, &'static [Operand])> {
    let (name, operands): (&str, &[Operand]) = match code {
        0x03 => ("addr", &[Address]),
        0x06 => ("deref", &[]),
        0x08 => ("const1u", &[Bytes(1)]),
        0x09 => ("const1s", &[Bytes(1)]),
        0x0a => ("const2u", &[Bytes(2)]),
        0x0b => ("const2s", &[Bytes(2)]),
        0x0c => ("const4u", &[Bytes(4)]),
        0x0d => ("const4s", &[Bytes(4)]),
        0x0e => ("const8u", &[Bytes(8)]),
        0x0f => ("const8s", &[Bytes(8)]),
        0x10 => ("constu", &[Leb]),
        0x11 => ("consts", &[Leb]),
        0x12 => ("dup", &[]),
        0x13 => ("drop", &[]),
        0x14 => ("over", &[]),
        0x15 => ("pick", &[Bytes(1)]),
        0x16 => ("swap", &[]),
        0x17 => ("rot", &[]),
        0x19 => ("abs", &[]),
        0x1a => ("and", &[]),
        0x1b => ("div", &[]),
        0x1c => ("minus", &[]),
        0x1d => ("mod", &[]),
        0x1e => ("mul", &[]),
        0x1f => ("neg", &[]),
        0x20 => ("not", &[]),
        0x21 => ("or", &[]),
        0x22 => ("plus", &[]),
        0x23 => ("plus_uconst", &[Leb]),
        0x24 => ("shl", &[]),
        0x25 => ("shr", &[]),
        0x26 => ("shra", &[]),
        0x27 => ("xor", &[]),
        0x28 => ("bra", &[Bytes(2)]),
        0x29 => ("eq", &[]),
        0x2a => ("ge", &[]),
        0x2b => ("gt", &[]),
        0x2c => ("le", &[]),
        0x2d => ("lt", &[]),
        0x2e => ("ne", &[]),
        0x2f => ("skip", &[Bytes(2)]),
        0x30..=0x4f => return Some((format!("lit{}", code - 0x30), &[])),
        0x50..=0x6f => return Some((format!("reg{}", code - 0x50), &[])),
        0x70..=0x8f => return Some((format!("breg{}", code - 0x70), &[Leb])),
        0x90 => ("regx", &[Leb]),
        0x91 => ("fbreg", &[Leb]),
        0x92 => ("bregx", &[Leb, Leb]),
        0x93 => ("piece", &[Leb]),
        0x94 => ("deref_size", &[Bytes(1)]),
        0x96 => ("nop", &[]),
        0x9c => ("call_frame_cfa", &[]),
        0x9d => ("bit_piece", &[Leb, Leb]),
        0x9e => ("implicit_value", &[Block]),
        0x9f => ("stack_value", &[]),
        0xa0 => ("implicit_pointer", &[Offset, Leb]),
        0xa1 => ("addrx", &[Leb]),
        0xa2 => ("constx", &[Leb]),
        // The operations inside follow the length.
        0xa3 => ("entry_value", &[Leb]),
        0xa4 => ("const_type", &[Leb, ShortBlock]),
        0xa5 => ("regval_type", &[Leb, Leb]),
        0xa6 => ("deref_type", &[Bytes(1), Leb]),
        0xa8 => ("convert", &[Leb]),
        0xa9 => ("reinterpret", &[Leb]),
        0xf2 => ("GNU_implicit_pointer", &[Offset, Leb]),
        0xf3 => ("GNU_entry_value", &[Leb]),
        0xf4 => ("GNU_const_type", &[Leb, ShortBlock]),
        0xf5 => ("GNU_regval_type", &[Leb, Leb]),
        0xf6 => ("GNU_deref_type", &[Bytes(1), Leb]),
        0xf7 => ("GNU_convert", &[Leb]),
        0xfb => ("GNU_addr_index", &[Leb]),
        0xfc => ("GNU_const_index", &[Leb]),
        _ => return None,
    };
    Some((name.to_string(), operands))
}

fn leb128(bytes: &[u8], at: &mut usize) -> Option<u64> {
    let (mut value, mut shift) = (0, 0);
    loop {
        let byte = *bytes.get(*at)?;
        *at += 1;
        value |= u64::from(byte & 0x7f) << (shift % 64);
        shift += 7;
        if byte < 0x80 {
            return Some(value);
        }
    }
}

/// The names of all operations; none where an expression isn't understood.
pub fn names(bytes: &[u8], address_size: u8, dwarf64: bool) -> Option<Vec<String>> {
    let (mut at, mut names) = (0, Vec::new());
    while at < bytes.len() {
        let (name, operands) = operation(bytes[at])?;
        names.push(name);
        at += 1;
        for operand in operands {
            match operand {
                Bytes(count) => at += count,
                Address => at += usize::from(address_size),
                Offset => at += if dwarf64 { 8 } else { 4 },
                Leb => drop(leb128(bytes, &mut at)?),
                Block => at += leb128(bytes, &mut at)? as usize,
                ShortBlock => at += 1 + usize::from(*bytes.get(at)?),
            }
        }
    }
    (at == bytes.len()).then_some(names)
}

/// Whether a dump's text can be that of an expression: the same operations in
/// the same order or, where the dump gives up, the same bytes. None when there
/// is nothing to tell by.
pub fn fits(text: &str, bytes: &[u8], address_size: u8, dwarf64: bool) -> Option<bool> {
    if let Some((_, hex)) = text.split_once("<decoding error>") {
        let shown: Option<Vec<u8>> = hex
            .trim_end_matches(')')
            .split_whitespace()
            .map(|pair| u8::from_str_radix(pair, 16).ok())
            .collect();
        return shown.map(|shown| bytes.ends_with(&shown));
    }
    if text.contains("<empty>") {
        return Some(bytes.is_empty());
    }
    let is_name = |c: char| c.is_ascii_alphanumeric() || c == '_';
    let name = |part: &str| part.chars().take_while(|&c| is_name(c)).collect();
    let shown: Vec<String> = text.split("DW_OP_").skip(1).map(name).collect();
    Some(shown == names(bytes, address_size, dwarf64)?)
}
