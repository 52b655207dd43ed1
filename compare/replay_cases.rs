//! Which calls are asked: made ones, for every kind of entry, every refusal and
//! every boundary; and drawn ones, from the generator's seeds.

use super::replay_calls::*;
use generator::{Case, READ, SIZES};

fn top(size: u8) -> u64 {
    u64::MAX >> (64 - 8 * u32::from(size))
}

fn fixed(value: u64, width: u8, big_endian: bool) -> Vec<u8> {
    let mut bytes = value.to_le_bytes()[..usize::from(width)].to_vec();
    if big_endian {
        bytes.reverse();
    }
    bytes
}

/// LEB128 in at least `least` bytes.
fn leb128(mut value: u64, least: usize) -> Vec<u8> {
    let mut bytes = Vec::new();
    loop {
        let byte = value as u8 & 0x7f;
        value >>= 7;
        if value == 0 && least <= bytes.len() + 1 {
            bytes.push(byte);
            return bytes;
        }
        bytes.push(byte | 0x80);
    }
}

/// How a list is written: which list, version, address size, order.
#[derive(Clone, Copy)]
struct Shape {
    list: u64,
    version: u16,
    size: u8,
    big_endian: bool,
}

/// A part of an entry; `Data` is an expression's bytes.
#[derive(Clone, Copy)]
enum Part {
    Code(u8),
    Address(u64),
    Leb128(u64),
    Fixed(u64, u8),
    Data,
}

/// The bytes of each expression.
const DATA: [u8; 2] = [0x91, 0x00];

impl Shape {
    fn located(&self) -> bool {
        self.list != 0
    }

    fn old(&self) -> bool {
        self.version <= 4
    }

    /// Whether entries are bare pairs.
    fn bare(&self) -> bool {
        self.old() && self.list != 2
    }

    fn expression(&self, mut parts: Vec<Part>) -> Vec<Part> {
        if self.located() {
            let length = DATA.len() as u64;
            parts.push(if self.old() { Part::Fixed(length, 2) } else { Part::Leb128(length) });
            parts.push(Part::Data);
        }
        parts
    }

    fn pair(&self, begin: u64, end: u64) -> Vec<Part> {
        self.expression(vec![Part::Address(begin), Part::Address(end)])
    }

    /// A bare pair without an expression: base selection, end mark.
    fn plain(&self, begin: u64, end: u64) -> Vec<Part> {
        vec![Part::Address(begin), Part::Address(end)]
    }

    /// An entry by the scope's numbers of location kinds, 1 to 8.
    fn entry(&self, meaning: u8, a: u64, b: u64) -> Vec<Part> {
        let code = Part::Code(if self.located() || meaning < 5 { meaning } else { meaning - 1 });
        let mut parts = vec![code];
        match meaning {
            1 => parts.push(Part::Leb128(a)),
            2 | 4 => parts.extend([Part::Leb128(a), Part::Leb128(b)]),
            3 if self.located() && self.old() => {
                parts.extend([Part::Leb128(a), Part::Fixed(b, 4)]);
            }
            3 => parts.extend([Part::Leb128(a), Part::Leb128(b)]),
            5 => {}
            6 => parts.push(Part::Address(a)),
            7 => parts.extend([Part::Address(a), Part::Address(b)]),
            _ => parts.extend([Part::Address(a), Part::Leb128(b)]),
        }
        if matches!(meaning, 1 | 6) { parts } else { self.expression(parts) }
    }

    fn bytes(&self, part: Part) -> Vec<u8> {
        match part {
            Part::Code(code) => vec![code],
            Part::Address(value) => fixed(value, self.size, self.big_endian),
            Part::Leb128(value) => leb128(value, 1),
            Part::Fixed(value, width) => fixed(value, width, self.big_endian),
            Part::Data => DATA.to_vec(),
        }
    }

    fn write(&self, entries: &[Vec<Part>]) -> Vec<u8> {
        entries.iter().flatten().flat_map(|&part| self.bytes(part)).collect()
    }

    /// The meanings of kinds that the list has.
    fn meanings(&self) -> Vec<u8> {
        (1..=8).filter(|&meaning| self.located() || meaning != 5).collect()
    }

    fn end(&self) -> Vec<u8> {
        if self.bare() { vec![0; 2 * usize::from(self.size)] } else { vec![0] }
    }

    /// Four addresses behind eight other bytes: 10, 30, the tombstone bound, the
    /// highest.
    fn table(&self) -> Vec<u8> {
        let addresses = [0x10, 0x30, top(self.size) - 1, top(self.size)];
        let mut table = vec![0xee; 8];
        addresses.iter().for_each(|&a| table.extend(fixed(a, self.size, self.big_endian)));
        table
    }

    /// A call on the list `bytes`; the section that isn't chosen holds something else.
    fn call(&self, style: u64, bytes: Vec<u8>, base_address: u64) -> Call {
        let other = vec![0xff];
        let (old, new) = if self.old() { (bytes, other) } else { (other, bytes) };
        Call {
            what: 4 * self.list + style,
            size: self.size,
            version: self.version,
            big_endian: self.big_endian,
            dwarf64: self.version % 2 == 1,
            numbers: [0, base_address, 8, 0],
            old,
            new,
            table: self.table(),
        }
    }
}

/// Every kind of entry, with good and refused indexes, and what follows the end.
fn tour(shape: &Shape) -> Vec<u8> {
    let s = shape;
    let top = top(s.size);
    let mut bytes = if s.bare() {
        s.write(&[
            s.pair(1, 5),
            s.plain(top, 0x20),
            s.pair(1, 5),
            s.pair(6, 6),
            s.pair(7, 6),
            s.pair(0, 1),
            s.pair(top - 1, top),
        ])
    } else {
        let mut entries = vec![
            s.entry(4, 1, 5),
            s.entry(6, 0x20, 0),
            s.entry(4, 1, 5),
            s.entry(1, 1, 0),
            s.entry(4, 6, 6),
            s.entry(2, 0, 1),
            s.entry(3, 0, 8),
            s.entry(7, 0x40, 0x48),
            s.entry(8, 0x50, 9),
            s.entry(1, 4, 0),
            s.entry(2, 0, 4),
            s.entry(3, u64::MAX, 1),
        ];
        if s.located() {
            entries.push(s.entry(5, 0, 0));
        }
        s.write(&entries)
    };
    bytes.extend(s.end());
    bytes.extend([7, 7]);
    bytes
}

fn tours(ask: &mut dyn FnMut(&Call)) {
    for list in 0..3 {
        for (i, version) in (2..=6).enumerate() {
            for (j, size) in SIZES.into_iter().enumerate() {
                let style = if (i + j) % 2 == 0 { NEXT } else { CONVERT };
                let big_endian = (i + j / 2) % 2 == 1;
                let shape = Shape { list, version, size, big_endian };
                ask(&shape.call(style, tour(&shape), 0x30));
            }
        }
        for version in [4, 5] {
            for big_endian in [false, true] {
                let shape = Shape { list, version, size: 4, big_endian };
                ask(&shape.call(RAW, tour(&shape), 0x30));
            }
        }
    }
}

/// The shapes that differ in how entries are written.
fn shapes(size: u8, big_endian: bool) -> Vec<Shape> {
    let lists = [(0, 4), (0, 5), (1, 4), (1, 5), (2, 4), (2, 5)];
    lists.map(|(list, version)| Shape { list, version, size, big_endian }).to_vec()
}

/// Those without split lists from version 5 on, which are written as plain ones.
fn fewer_shapes(size: u8, big_endian: bool) -> Vec<Shape> {
    let mut shapes = shapes(size, big_endian);
    shapes.pop();
    shapes
}

/// One of each entry.
fn each_entry(shape: &Shape) -> Vec<Vec<Part>> {
    if shape.bare() {
        return vec![shape.pair(0x11, 0x22), shape.plain(top(shape.size), 0x20)];
    }
    shape.meanings().into_iter().map(|meaning| shape.entry(meaning, 1, 3)).collect()
}

/// Every entry cut at every byte.
fn cuts(ask: &mut dyn FnMut(&Call)) {
    for shape in fewer_shapes(2, false) {
        for (i, entry) in each_entry(&shape).into_iter().enumerate() {
            let shape = Shape { big_endian: i % 2 == 1, ..shape };
            let bytes = shape.write(&[entry]);
            for length in 0..=bytes.len() {
                let style = [NEXT, CONVERT, NEXT, RAW][length % 4];
                ask(&shape.call(style, bytes[..length].to_vec(), 0x30));
            }
        }
    }
}

/// Every LEB128 operand padded to ten bytes, with a tenth byte too high, and
/// without an end.
fn numbers(ask: &mut dyn FnMut(&Call)) {
    for (n, shape) in fewer_shapes(4, false).into_iter().enumerate() {
        for entry in each_entry(&shape) {
            for (i, &part) in entry.iter().enumerate() {
                let Part::Leb128(value) = part else { continue };
                let with = |number: Vec<u8>| {
                    let mut bytes = shape.write(&[entry[..i].to_vec()]);
                    bytes.extend(number);
                    bytes.extend(shape.write(&[entry[i + 1..].to_vec()]));
                    bytes.extend(shape.end());
                    bytes
                };
                let mut high = leb128(value, 10);
                high[9] = 2;
                let style = if n % 2 == 0 { NEXT } else { CONVERT };
                ask(&shape.call(style, with(leb128(value, 10)), 0x30));
                ask(&shape.call(NEXT, with(high), 0x30));
                ask(&shape.call(NEXT, with(vec![0x81; 9]), 0x30));
            }
        }
    }
}

/// Kinds that don't exist, and the highest lengths of expressions.
fn unknown(ask: &mut dyn FnMut(&Call)) {
    for shape in shapes(4, false).into_iter().filter(|shape| !shape.bare()) {
        for code in [8, 9, 10, 0x10, 0x7f, 0x80, 0xff] {
            if code != 8 || !shape.located() {
                let style = u64::from(code) % 3;
                ask(&shape.call(style, vec![code, 1, 0, 0], 0));
            }
        }
    }
    for shape in shapes(1, true).into_iter().filter(Shape::located) {
        let begin = if shape.bare() { vec![1, 2] } else { vec![4, 1, 2] };
        for length in [0, 1, 3, 4, 5, 0xffff, 0x10000, 1 << 63, u64::MAX] {
            let mut bytes = begin.clone();
            if shape.old() {
                bytes.extend(fixed(length, 2, shape.big_endian));
            } else {
                bytes.extend(leb128(length, 1));
            }
            bytes.extend([0x50, 0x51, 0x52, 0x53]);
            ask(&shape.call(CONVERT, bytes, 0));
        }
    }
}

/// Bases and begins below, at and above the tombstone bound, and sums that wrap.
fn edges(ask: &mut dyn FnMut(&Call)) {
    for size in SIZES {
        let top = top(size);
        for (list, version) in [(0, 4), (0, 5), (1, 4), (1, 5), (2, 4)] {
            let shape = Shape { list, version, size, big_endian: size % 2 == 0 };
            // gimli converts locations by code of their own: there the bound itself will do.
            let bases = [top - 2, top - 1, top, top - 9];
            for &base in &bases[if shape.located() { 1..2 } else { 0..4 }] {
                let pairs =
                    [(0, 1), (2, 1), (1, 8), (5, 0xb), (0xa, 0xc), (top - 1, top), (3, top)];
                let entries =
                    pairs.map(
                        |(a, b)| {
                            if shape.bare() { shape.pair(a, b) } else { shape.entry(4, a, b) }
                        },
                    );
                let style = if base == top { NEXT } else { CONVERT };
                ask(&shape.call(style, shape.write(&entries), base));
            }
        }
        for (list, version) in [(0, 5), if size == 4 { (2, 4) } else { (1, 5) }] {
            let s = Shape { list, version, size, big_endian: list == 1 };
            let entries = [
                s.entry(7, top - 2, top),
                s.entry(7, top - 1, top),
                s.entry(7, top, top),
                s.entry(7, 6, 5),
                s.entry(8, top - 2, 1),
                s.entry(8, top - 2, 4),
                s.entry(8, top - 1, 1),
                s.entry(8, 5, 0),
                s.entry(8, 5, u64::MAX),
                s.entry(8, 5, top),
                s.entry(2, 2, 3),
                s.entry(2, 0, 2),
                s.entry(2, 1, 0),
                s.entry(2, 4, 0),
                s.entry(3, 0, 0),
                s.entry(3, 2, 1),
                s.entry(3, 0, 0xffff_ffff),
                s.entry(3, 5, 1),
                s.entry(1, 2, 0),
                s.entry(4, 0, 1),
                s.entry(6, top, 0),
                s.entry(4, 0, 1),
            ];
            let (first, second) = entries.split_at(10);
            ask(&s.call(CONVERT, s.write(first), 0));
            ask(&s.call(CONVERT, s.write(second), 0));
        }
    }
}

/// Indexes whose product passes 2^64, bases behind the table, cut rows.
fn lookups_in_tables(ask: &mut dyn FnMut(&Call)) {
    for size in SIZES {
        for (list, version) in [(0, 5), (2, 4)] {
            let shape = Shape { list, version, size, big_endian: list == 2 };
            let most = u64::MAX / u64::from(size);
            let entries = [1, 2, 3].map(|meaning| shape.entry(meaning, most, 1));
            let mut more = entries.to_vec();
            more.extend([1, 2, 3].map(|meaning| shape.entry(meaning, most.wrapping_add(1), 1)));
            more.push(shape.entry(2, 0, most));
            more.push(shape.entry(2, 0, most.wrapping_add(1)));
            ask(&shape.call(NEXT, shape.write(&more), 0));
            for base in [8 + 3 * u64::from(size), 9 + 3 * u64::from(size), 1 << 40, u64::MAX] {
                let mut call = shape.call(NEXT, shape.write(&[shape.entry(3, 0, 1)]), 0);
                call.numbers[2] = base;
                ask(&call);
            }
        }
    }
}

fn openings(ask: &mut dyn FnMut(&Call)) {
    for shape in shapes(4, false) {
        let bytes = tour(&shape);
        let length = bytes.len() as u64;
        for offset in [length - 2, length, length + 1, 1 << 32, u64::MAX] {
            for style in [NEXT, RAW] {
                let mut call = shape.call(style, bytes.clone(), 0);
                call.numbers[0] = offset;
                ask(&call);
            }
        }
    }
}

fn look_ups(ask: &mut dyn FnMut(&Call)) {
    for shape in shapes(2, true) {
        for address in [0x30, 0x31, 0x34, 0x35, 0x10, 0x21, 0x24, 0x47, 0x48, 0x51, u64::MAX] {
            let mut call = shape.call(LOOKUP, tour(&shape), 0x30);
            call.numbers[3] = address;
            ask(&call);
        }
        let mut past = shape.call(LOOKUP, tour(&shape), 0x30);
        past.numbers[0] = 1 << 20;
        ask(&past);
        ask(&shape.call(LOOKUP, tour(&shape)[..6].to_vec(), 0x30));
    }
}

/// Lookups in lists with default locations: before and behind a bounded entry,
/// twice, before damage, and beside a bounded entry of all addresses.
fn defaults(ask: &mut dyn FnMut(&Call)) {
    let shapes =
        [(1, 5, 4, false), (1, 5, 8, true), (2, 3, 2, true), (2, 4, 8, false), (2, 5, 1, false)];
    for (list, version, size, big_endian) in shapes {
        let s = Shape { list, version, size, big_endian };
        let entries = [(5, 0, 0), (8, 0x10, 8), (1, 4, 0), (7, 0, top(size))];
        let [default, bounded, failed, all] =
            entries.map(|(meaning, a, b)| s.write(&[s.entry(meaning, a, b)]));
        let (unknown, end) = ([9], s.end());
        let lists = [
            [&default[..], &bounded, &end].concat(),
            [&bounded[..], &default].concat(),
            [&bounded[..], &default, &default, &end].concat(),
            [&default[..], &bounded, &default, &unknown].concat(),
            [&default[..], &failed, &bounded, &end].concat(),
            [&default[..], &all, &unknown].concat(),
        ];
        for bytes in lists {
            for address in [0xf, 0x10, u64::MAX - 1, u64::MAX] {
                let mut call = s.call(LOOKUP, bytes.clone(), 0);
                call.numbers[3] = address;
                ask(&call);
            }
        }
    }
}

fn plain(what: u64, size: u8, big_endian: bool, dwarf64: bool, table: Vec<u8>) -> Call {
    Call { what, size, version: 5, big_endian, dwarf64, table, ..Call::default() }
}

/// A header's fields; `length` is what the length field says less the true one.
#[derive(Clone, Copy)]
struct Header {
    length: u64,
    version: u64,
    size: u8,
    segment: u8,
}

const GOOD: Header = Header { length: 0, version: 5, size: 4, segment: 0 };

fn header(h: Header, what: u64, big_endian: bool, dwarf64: bool) -> Vec<u8> {
    let mut rest = fixed(h.version, 2, big_endian);
    rest.extend([h.size, h.segment]);
    if what == LISTS_HEADER {
        rest.extend(fixed(0x10203, 4, big_endian));
    }
    let width = usize::from(h.size.clamp(1, 8));
    rest.extend((0..3 * width).map(|i| 0x21 + i as u8));
    let length = (rest.len() as u64).wrapping_add(h.length);
    let mut bytes = if dwarf64 { vec![0xff; 4] } else { Vec::new() };
    bytes.extend(fixed(length, if dwarf64 { 8 } else { 4 }, big_endian));
    bytes.extend(rest);
    bytes
}

fn headers(ask: &mut dyn FnMut(&Call)) {
    for what in [TABLES, LISTS_HEADER] {
        for (big_endian, dwarf64) in [(false, false), (true, false), (false, true), (true, true)] {
            let with = |h: Header| header(h, what, big_endian, dwarf64);
            let mut put = |size, bytes| ask(&plain(what, size, big_endian, dwarf64, bytes));
            for size in [1, 2, 4, 8, 0, 5, 9, 255] {
                put(size, with(Header { size, ..GOOD }));
            }
            for version in [0, 4, 6, 0x500, 0xffff] {
                put(4, with(Header { version, ..GOOD }));
            }
            for segment in [1, 4, 255] {
                put(4, with(Header { segment, ..GOOD }));
            }
            put(4, with(Header { length: 1, ..GOOD }));
            put(4, with(Header { length: 1 << 20, ..GOOD }));
            put(5, with(Header { version: 4, size: 5, segment: 1, ..GOOD }));
            put(5, with(Header { size: 5, segment: 1, ..GOOD }));
            let two = [with(GOOD), with(Header { size: 2, ..GOOD })].concat();
            put(4, two.clone());
            let length = with(GOOD).len() as u64;
            for cut in (1..=length).filter(|_| big_endian == dwarf64) {
                if cut % 2 == 0 {
                    put(4, two[..(length - cut) as usize].to_vec());
                } else {
                    put(4, with(Header { length: cut.wrapping_neg(), ..GOOD }));
                }
            }
            put(4, [with(GOOD), with(Header { version: 3, ..GOOD }), with(GOOD)].concat());
        }
        for first in [0xffff_fff0, 0xffff_fff8, 0xffff_fffe, 0xffff_ffef] {
            for big_endian in [false, true] {
                let mut bytes = fixed(first, 4, big_endian);
                bytes.extend([0; 12]);
                ask(&plain(what, 0, big_endian, false, bytes));
            }
        }
    }
}

fn addresses(ask: &mut dyn FnMut(&Call)) {
    for size in [1, 2, 4, 8, 0, 3, 5, 6, 7, 9, 16, 255] {
        for big_endian in [false, true] {
            // Of a bad size only a row that is there, and one whose product passes 2^64. Of size 3
            // those are kept that gimli answers before it comes to the size.
            let table: Vec<u8> = (0..25).map(|i| 0xa0 + i).collect();
            let width = u64::from(size.max(1));
            let most = u64::MAX / width;
            let calls = [
                (0, 0),
                (0, most.wrapping_add(1)),
                (0, 1),
                (8, 1),
                (0, 24 / width),
                (0, 25 / width),
                (1, 24 / width),
                (25, 0),
                (26, 0),
                (u64::MAX, 0),
                (26, u64::MAX),
                (0, most),
                (0, u64::MAX),
            ];
            let some = if READ.contains(&size) { calls.len() } else { 2 };
            for &(base, index) in &calls[..some] {
                let mut call = plain(GET_ADDRESS, size, big_endian, false, table.clone());
                call.numbers = [base, index, 0, 0];
                ask(&call);
            }
        }
    }
}

fn offsets(ask: &mut dyn FnMut(&Call)) {
    for what in [RANGE_OFFSET, LOCATION_OFFSET] {
        for (big_endian, dwarf64) in [(false, false), (true, false), (false, true), (true, true)] {
            let word = if dwarf64 { 8 } else { 4 };
            let mut table = vec![0xee; 3];
            for offset in [0x10, 0x1234, u64::MAX - 2, 0] {
                table.extend(fixed(offset, word, big_endian));
            }
            let (length, most) = (table.len() as u64, u64::MAX / u64::from(word));
            let calls = [
                (3, 0),
                (3, 1),
                (3, 2),
                (3, 3),
                (3, 4),
                (0, 0),
                (0, 3),
                (4, 3),
                (length, 0),
                (length + 1, 0),
                (u64::MAX, 0),
                (length + 1, u64::MAX),
                (3, most),
                (3, most + 1),
                (3, u64::MAX),
            ];
            for (base, index) in calls {
                let mut call = plain(what, 0, big_endian, dwarf64, table.clone());
                call.numbers = [base, index, 0, 0];
                ask(&call);
            }
        }
    }
}

fn reads(ask: &mut dyn FnMut(&Call)) {
    let values = [0, 1, 0x7f, 0x80, 0x3fff, 0x4000, 1 << 62, (1 << 63) - 1, 1 << 63, u64::MAX];
    for value in values {
        for least in [1, 2, 9, 10] {
            ask(&plain(LEB128, 0, false, false, [leb128(value, least), vec![0x55]].concat()));
        }
    }
    for length in 0..=11 {
        ask(&plain(LEB128, 0, false, false, vec![0x80; length]));
        ask(&plain(LEB128, 0, false, false, vec![0xff; length]));
    }
    for tenth in [0, 1, 2, 3, 0x7f, 0x80, 0x81, 0xff] {
        ask(&plain(LEB128, 0, false, false, [vec![0x80; 9], vec![tenth]].concat()));
        ask(&plain(LEB128, 0, false, false, [vec![0xff; 9], vec![tenth, 0]].concat()));
    }
    let sizes = [1, 2, 4, 8, 0, 16, 5, 6, 7, 9, 255];
    for length in [0, 1, 2, 3, 4, 7, 8, 9, 12u8] {
        for big_endian in [false, true] {
            let bytes: Vec<u8> = (0..length).map(|i| 8 - (i & 7)).collect();
            let size = sizes[usize::from(length) % sizes.len()];
            let mut call = plain(READS, size, big_endian, false, bytes);
            call.numbers[0] =
                [0, u64::from(length), 1 + u64::from(length), u64::MAX, 4][usize::from(length) % 5];
            ask(&call);
        }
    }
    for first in [0xffff_ffef, 0xffff_fff0, 0xffff_fffe, 0xffff_ffff] {
        for (big_endian, more) in [(first % 3 == 0, 8), (first % 3 != 0, 7)] {
            let mut bytes = fixed(first, 4, big_endian);
            bytes.extend(&[1, 2, 3, 4, 5, 6, 7, 8][..more]);
            ask(&plain(READS, 4, big_endian, false, bytes));
        }
    }
}

fn sums(ask: &mut dyn FnMut(&Call)) {
    for size in READ {
        let top = top(size);
        for (a, b) in
            [(1, 2), (top, 0), (top, 1), (top - 1, top), (u64::MAX, 1), (1 << 63, 1 << 63)]
        {
            let mut call = plain(SUMS, size, false, false, Vec::new());
            call.numbers = [a, b, 0, 0];
            ask(&call);
        }
    }
    for version in 0..=8 {
        for dwarf64 in [false, true] {
            ask(&Call { version, ..plain(BASES, 0, false, dwarf64, Vec::new()) });
        }
    }
}

pub fn made(ask: &mut dyn FnMut(&Call)) {
    let groups = [
        tours,
        cuts,
        numbers,
        unknown,
        edges,
        lookups_in_tables,
        openings,
        look_ups,
        defaults,
        headers,
        addresses,
        offsets,
        reads,
        sums,
    ];
    groups.iter().for_each(|group| group(ask));
}

/// How many seeds are drawn, and the most bytes of a section.
const SEEDS: u64 = 100_000;
const LONGEST: usize = 64;

/// The generator's cases, when they are short.
pub fn drawn(ask: &mut dyn FnMut(&Call)) {
    for seed in 0..SEEDS {
        let call = call_of(generator::case(seed, &SIZES), seed);
        if let Some(call) = call
            && call.old.len() + call.new.len() + call.table.len() <= 2 * LONGEST
        {
            ask(&call);
        }
    }
}

/// A case as a call. Entries made by hand are left to `differ`.
fn call_of(case: Case, seed: u64) -> Option<Call> {
    let call = match case {
        Case::List(c) => Call {
            what: 4 * c.kind as u64 + seed % 2,
            size: c.address_size,
            version: c.version,
            big_endian: c.big_endian,
            dwarf64: c.dwarf64,
            numbers: [c.offset, c.base_address, c.table_base, 0],
            old: c.old,
            new: c.new,
            table: c.table,
        },
        Case::Convert(_) => return None,
        Case::Address(c) => Call {
            numbers: [c.base, c.index, 0, 0],
            ..plain(GET_ADDRESS, c.address_size, c.big_endian, false, c.table)
        },
        Case::Tables(c) => plain(TABLES, 0, c.big_endian, false, c.section),
        Case::Lists(c) => plain(LISTS_HEADER, 0, c.big_endian, false, c.section),
        Case::Offset(c) => Call {
            numbers: [c.base, c.index, 0, 0],
            ..plain(RANGE_OFFSET + c.kind as u64, 0, c.big_endian, c.dwarf64, c.section)
        },
        Case::Leb128(bytes) => plain(LEB128, 0, false, false, bytes),
        Case::Bytes(c) => Call {
            numbers: [c.count, 0, 0, 0],
            ..plain(READS, c.width, c.big_endian, false, c.bytes)
        },
        Case::Sum(c) => Call {
            numbers: [c.first, c.second, 0, 0],
            ..plain(SUMS, c.address_size, false, false, Vec::new())
        },
    };
    Some(call)
}
