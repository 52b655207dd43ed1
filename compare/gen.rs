//! Cases for the comparison, each made from a seed alone, and every short list
//! by its number. Nothing here knows a reader.

/// Numbers from a seed (splitmix64).
pub struct Random(u64);

impl Random {
    pub fn new(seed: u64) -> Random {
        Random(seed)
    }

    pub fn next(&mut self) -> u64 {
        self.0 = self.0.wrapping_add(0x9e3779b97f4a7c15);
        let mut z = self.0;
        z = (z ^ (z >> 30)).wrapping_mul(0xbf58476d1ce4e5b9);
        z = (z ^ (z >> 27)).wrapping_mul(0x94d049bb133111eb);
        z ^ (z >> 31)
    }

    /// A number below `limit`.
    pub fn below(&mut self, limit: u64) -> u64 {
        self.next() % limit
    }

    /// True in `part` of `whole` cases.
    pub fn one_in(&mut self, part: u64, whole: u64) -> bool {
        self.below(whole) < part
    }

    pub fn pick<T: Copy>(&mut self, from: &[T]) -> T {
        from[self.below(from.len() as u64) as usize]
    }

    fn bytes(&mut self, count: u64) -> Vec<u8> {
        (0..count).map(|_| self.next() as u8).collect()
    }
}

#[derive(Debug, Clone, Copy, PartialEq, Eq, Hash)]
pub enum Kind {
    Ranges,
    Locations,
    SplitLocations,
}

pub const KINDS: [Kind; 3] = [Kind::Ranges, Kind::Locations, Kind::SplitLocations];
/// The address sizes that gimli reads, and those that the scope reads.
pub const SIZES: [u8; 4] = [1, 2, 4, 8];
pub const READ: [u8; 5] = [1, 2, 3, 4, 8];

/// A list and all that its reading depends on. `old` is read up to version 4,
/// `new` from version 5.
#[derive(Debug, Clone, PartialEq, Eq)]
pub struct ListCase {
    pub kind: Kind,
    pub old: Vec<u8>,
    pub new: Vec<u8>,
    pub offset: u64,
    pub version: u16,
    pub address_size: u8,
    pub dwarf64: bool,
    pub big_endian: bool,
    pub base_address: u64,
    pub table: Vec<u8>,
    pub table_base: u64,
}

/// A raw entry made by hand, for conversion. `form` counts the forms in this
/// order: bare pair, base, base by index, start and end by index, start by
/// index and length, offset pair, default, start and end, start and length.
/// `expression` is an offset and a length inside the section.
#[derive(Debug, Clone, PartialEq, Eq)]
pub struct ConvertCase {
    pub list: ListCase,
    pub entries: Vec<RawCase>,
}

#[derive(Debug, Clone, Copy, PartialEq, Eq)]
pub struct RawCase {
    pub form: u8,
    pub first: u64,
    pub second: u64,
    pub expression: (u64, u64),
}

/// A lookup in an address table.
#[derive(Debug, Clone, PartialEq, Eq)]
pub struct AddressCase {
    pub table: Vec<u8>,
    pub big_endian: bool,
    pub address_size: u8,
    pub base: u64,
    pub index: u64,
}

/// A section that begins with a header: address tables or a lists section.
#[derive(Debug, Clone, PartialEq, Eq)]
pub struct SectionCase {
    pub section: Vec<u8>,
    pub big_endian: bool,
}

/// A lookup in a table of list offsets.
#[derive(Debug, Clone, PartialEq, Eq)]
pub struct OffsetCase {
    pub kind: Kind,
    pub section: Vec<u8>,
    pub big_endian: bool,
    pub dwarf64: bool,
    pub base: u64,
    pub index: u64,
}

/// Reading numbers and parts: some bytes, a width, which for an address may be 3,
/// a count to skip or keep.
#[derive(Debug, Clone, PartialEq, Eq)]
pub struct BytesCase {
    pub bytes: Vec<u8>,
    pub big_endian: bool,
    pub width: u8,
    pub count: u64,
}

/// Sums: two numbers and an address size.
#[derive(Debug, Clone, PartialEq, Eq)]
pub struct SumCase {
    pub first: u64,
    pub second: u64,
    pub address_size: u8,
}

#[derive(Debug, Clone, PartialEq, Eq)]
pub enum Case {
    List(ListCase),
    Convert(ConvertCase),
    Address(AddressCase),
    Tables(SectionCase),
    Lists(SectionCase),
    Offset(OffsetCase),
    Leb128(Vec<u8>),
    Bytes(BytesCase),
    Sum(SumCase),
}

/// The case of a seed. Its address size is one of the sizes, but where another
/// is put in on purpose.
pub fn case(seed: u64, sizes: &[u8]) -> Case {
    let r = &mut Random::new(seed);
    match r.below(40) {
        0..=22 => Case::List(list_case(r, sizes)),
        23..=26 => Case::Convert(convert_case(r, sizes)),
        27..=29 => Case::Address(address_case(r, sizes)),
        30..=31 => Case::Tables(tables_case(r, sizes)),
        32..=33 => Case::Lists(lists_case(r, sizes)),
        34..=35 => Case::Offset(offset_case(r)),
        36..=37 => Case::Leb128(leb128_case(r)),
        38 => Case::Bytes(bytes_case(r, sizes)),
        _ => {
            let size = r.pick(sizes);
            let (first, second) = (number(r, size), number(r, size));
            Case::Sum(SumCase { first, second, address_size: size })
        }
    }
}

/// How many byte strings of up to three bytes there are.
pub const SHORT_LISTS: u32 = 1 + 0x100 + 0x10000 + 0x1000000;

/// Every byte string of up to three bytes, by length, then by bytes.
pub fn short_list(index: u32) -> ([u8; 3], usize) {
    let (mut rest, mut length) = (index, 0);
    while rest >= 1 << (8 * length) {
        rest -= 1 << (8 * length);
        length += 1;
    }
    let [_, a, b, c] = rest.to_be_bytes();
    ([[0; 3], [c, 0, 0], [b, c, 0], [a, b, c]][length], length)
}

/// How many sections `table_header` makes.
pub const TABLE_HEADERS: u32 = 256 * 2 * 2 * 16 * 18 * 4;

/// Every byte as an address size, in both orders and formats, behind a table of
/// 0 to 15 addresses of a byte, so that the header stands at places of every
/// remainder; 0 to 17 bytes of addresses and two bytes more, and a length that
/// is true, one less, one more, or past the section's end.
pub fn table_header(index: u32) -> SectionCase {
    let mut rest = index;
    let mut digit = |base: u32| {
        let digit = rest % base;
        rest /= base;
        u64::from(digit)
    };
    let (size, big_endian, dwarf64) = (digit(256), digit(2) == 1, digit(2) == 1);
    let (before, tail, length) = (digit(16), digit(18), digit(4));
    let mut w = Writer::new(Vec::new(), big_endian);
    w.fixed(4 + before, 4);
    w.fixed(5, 2);
    w.out.extend([1, 0]);
    w.out.extend((0..before).map(|i| 0x40 + i as u8));
    if dwarf64 {
        w.fixed(0xffffffff, 4);
    }
    let length = [4 + tail, 3 + tail, 5 + tail, 7 + tail][length as usize];
    w.fixed(length, if dwarf64 { 8 } else { 4 });
    w.fixed(5, 2);
    w.out.extend([size as u8, 0]);
    w.out.extend((0..tail + 2).map(|i| 0x81 + i as u8));
    SectionCase { section: w.out, big_endian }
}

/// How wild a list is.
#[derive(Clone, Copy, PartialEq, Eq)]
enum Wild {
    /// Ordinary numbers in shortest form; every entry is well made.
    Tame,
    /// Numbers at every boundary, padded forms; every entry is well made.
    Edges,
    /// The same, with more padded forms.
    Padded,
    /// Numbers that are given; few padded forms.
    Given,
    /// Also overlong numbers, unknown kinds, wrong lengths.
    Broken,
}

/// The largest address; a size above 8 counts as 8.
fn top(size: u8) -> u64 {
    u64::MAX >> (64 - 8 * u32::from(size.min(8)))
}

/// A number at or near a boundary, or any number of some width.
fn number(r: &mut Random, size: u8) -> u64 {
    let top = top(size);
    match r.below(16) {
        0 => 0,
        1 => 1,
        2 => r.below(300),
        3 | 4 => top - r.below(4),
        5 => top.wrapping_add(1 + r.below(4)),
        6 => (top >> 1).wrapping_add(r.below(3)),
        7 => r.pick(&[0x7f, 0x80, 0x3fff, 0x4000, 0xffff, 0x10000]),
        8 => r.pick(&[0x7fffffff, 0x80000000, 0xfffffffe, 0xffffffff, 0x100000000]),
        9 => r.pick(&[1 << 61, (1 << 61) - 1, 1 << 62, (1 << 63) - 1, 1 << 63, (1 << 63) + 1]),
        10 => u64::MAX - r.below(4),
        11 => r.below(0x1000).wrapping_neg(),
        12 => r.next() & top,
        _ => r.next() >> r.below(64),
    }
}

/// A small number that fits the size; of size 3 up to a quarter of what fits, so
/// that its third byte counts.
fn tame(r: &mut Random, size: u8) -> u64 {
    r.below(match size {
        1 => 0x60,
        3 => 0x400000,
        _ => 0x2000,
    })
}

fn some_number(r: &mut Random, size: u8, wild: Wild) -> u64 {
    if wild == Wild::Tame || r.one_in(1, 3) { tame(r, size) } else { number(r, size) }
}

/// A begin and an end, mostly in order.
fn pair(r: &mut Random, size: u8, wild: Wild) -> (u64, u64) {
    let begin = some_number(r, size, wild);
    if wild == Wild::Tame {
        return (begin, begin + 1 + r.below(0x40));
    }
    let end = match r.below(8) {
        0 => begin,
        1 => begin.wrapping_sub(1),
        2 => some_number(r, size, wild),
        3 => begin.wrapping_add(number(r, size)),
        4 => begin.wrapping_add(top(size)).wrapping_add(r.below(4)),
        _ => begin.wrapping_add(1 + r.below(0x40)),
    };
    (begin, end)
}

/// The bytes of a section under way, in its byte order; where its addresses
/// stand, and the byte that would be next in each.
struct Writer {
    out: Vec<u8>,
    big_endian: bool,
    addresses: Vec<(usize, u8)>,
}

impl Writer {
    fn new(out: Vec<u8>, big_endian: bool) -> Writer {
        Writer { out, big_endian, addresses: Vec::new() }
    }

    fn address(&mut self, value: u64, size: u8) {
        self.addresses.push((self.out.len(), 0));
        self.fixed(value, size);
    }

    /// All ones, which select a base.
    fn ones(&mut self, size: u8) {
        self.addresses.push((self.out.len(), 0xff));
        self.fixed(u64::MAX, size);
    }

    /// The bytes with addresses of three bytes in four; none where an address is
    /// all ones by chance. The last may be cut.
    fn widened(&self) -> Option<Vec<u8>> {
        let mut out = self.out.clone();
        for &(at, next) in self.addresses.iter().rev() {
            let end = self.out.len().min(at + 3);
            if next == 0 && self.out[at..end] == [0xff; 3] {
                return None;
            }
            out.insert(if self.big_endian { at } else { end }, next);
        }
        Some(out)
    }

    fn fixed(&mut self, value: u64, width: u8) {
        let little = &value.to_le_bytes()[..usize::from(width)];
        if self.big_endian {
            self.out.extend(little.iter().rev());
        } else {
            self.out.extend(little);
        }
    }

    /// LEB128 in at least `least` bytes, ten at most.
    fn leb128(&mut self, mut value: u64, least: usize) {
        let start = self.out.len();
        loop {
            let byte = value as u8 & 0x7f;
            value >>= 7;
            let last = value == 0 && self.out.len() - start + 1 >= least;
            self.out.push(if last { byte } else { byte | 0x80 });
            if last {
                return;
            }
        }
    }

    /// LEB128 in shortest, padded or, in a broken list, overlong form.
    fn number(&mut self, r: &mut Random, value: u64, wild: Wild) {
        if wild == Wild::Broken && r.one_in(1, 24) {
            let tenth = r.pick(&[0x02, 0x7f, 0x80, 0x81, 0xff]);
            let filler = r.pick(&[0x80, 0xff]);
            self.out.extend([filler; 9]);
            self.out.push(tenth);
            return;
        }
        let shortest = match wild {
            Wild::Tame => true,
            Wild::Edges | Wild::Broken => r.one_in(3, 4),
            Wild::Padded => r.one_in(1, 2),
            Wild::Given => r.one_in(15, 16),
        };
        let least = if shortest { 1 } else { 1 + r.below(10) };
        self.leb128(value, least as usize);
    }
}

fn expression_length(r: &mut Random) -> u64 {
    match r.below(40) {
        0..=19 => 1 + r.below(4),
        20..=29 => 0,
        30..=35 => r.below(20),
        36 | 37 => r.pick(&[126, 127, 128, 129]),
        38 => r.pick(&[255, 256, 257, 300]),
        _ if r.one_in(1, 40) => r.pick(&[5325, 16383, 16384, 65535]),
        _ => 2,
    }
}

/// A length and an expression; `old` for a two-byte length.
fn expression(w: &mut Writer, r: &mut Random, old: bool, wild: Wild) {
    let length = expression_length(r);
    let stated = if wild == Wild::Broken && r.one_in(1, 24) {
        match r.below(4) {
            0 => length + 1,
            1 => length.saturating_sub(1),
            2 => r.pick(&[0xffff, 1 << 32, 1 << 63, u64::MAX]),
            _ => number(r, 2),
        }
    } else {
        length
    };
    if old {
        w.fixed(stated, 2);
    } else {
        w.number(r, stated, wild);
    }
    let bytes = r.bytes(length);
    w.out.extend(bytes);
}

/// An index into a table of `count` entries, mostly inside.
fn index(r: &mut Random, count: u64, size: u8, wild: Wild) -> u64 {
    let inside = if wild == Wild::Tame { 15 } else { 9 };
    match r.below(16) {
        n if n < inside => r.below(count.max(1)),
        n if n < 12 => count + r.below(3),
        n if n < 14 => {
            // Where index times size passes 2^64.
            let first = (1u128 << 64).div_ceil(u128::from(size));
            first.wrapping_sub(u128::from(r.below(3))) as u64
        }
        _ => number(r, size),
    }
}

/// One entry with a kind byte.
fn kind_entry(w: &mut Writer, r: &mut Random, list: &ListCase, count: u64, wild: Wild) {
    let meaning = r.pick(&[1, 2, 3, 3, 4, 4, 4, DEFAULT, 6, 7, 7, 8, 8]);
    if list.kind != Kind::Ranges || meaning != DEFAULT {
        entry_of(meaning, w, r, list, count, wild);
    }
}

/// The meaning that range lists have no kind for.
const DEFAULT: u8 = 5;

/// One entry by the scope's meanings: 1 to 8 are location kinds.
fn entry_of(meaning: u8, w: &mut Writer, r: &mut Random, list: &ListCase, count: u64, wild: Wild) {
    let size = list.address_size;
    let old_location = list.kind != Kind::Ranges && list.version <= 4;
    let (begin, end) = pair(r, size, wild);
    let length = match r.below(8) {
        0 => 0,
        1 => end,
        2 => some_number(r, size, wild),
        _ => r.below(0x40) + 1,
    };
    let first = match meaning {
        1..=3 => index(r, count, size, wild),
        6 => base(r, size, wild),
        _ => begin,
    };
    let second = |r: &mut Random| match meaning {
        2 if r.one_in(1, 2) => first.wrapping_add(1),
        2 => index(r, count, size, wild),
        3 if old_location && r.one_in(1, 16) => 0xffffffff,
        3 | 8 => length,
        _ => end,
    };
    entry_with(meaning, first, second, w, r, list, wild);
}

/// An entry of a meaning with these numbers, as far as it has them; the second is
/// drawn when the first is written.
fn entry_with(
    meaning: u8,
    first: u64,
    second: impl FnOnce(&mut Random) -> u64,
    w: &mut Writer,
    r: &mut Random,
    list: &ListCase,
    wild: Wild,
) {
    let (size, old, located) = (list.address_size, list.version <= 4, list.kind != Kind::Ranges);
    w.out.push(if located || meaning < DEFAULT { meaning } else { meaning - 1 });
    match meaning {
        DEFAULT => {}
        6..=8 => w.address(first, size),
        _ => w.number(r, first, wild),
    }
    let second = second(r);
    match meaning {
        1 | DEFAULT | 6 => {}
        3 if located && old => w.fixed(second, 4),
        7 => w.address(second, size),
        _ => w.number(r, second, wild),
    }
    if located && !matches!(meaning, 1 | 6) {
        expression(w, r, old, wild);
    }
}

/// A bare pair, a base selection, or nearly one.
fn bare_entry(w: &mut Writer, r: &mut Random, list: &ListCase, wild: Wild) {
    let size = list.address_size;
    let (mut begin, mut end) = pair(r, size, wild);
    let what = r.below(12);
    if what == 0 || what == 1 {
        w.ones(size);
        let base = base(r, size, wild);
        w.address(base, size);
        return;
    }
    if wild != Wild::Tame && what == 2 {
        begin = top(size) - 1;
    }
    if wild != Wild::Tame && what == 3 {
        begin = 0;
        end = r.below(2);
    }
    w.address(begin, size);
    w.address(end, size);
    if list.kind == Kind::Locations && (begin & top(size), end & top(size)) != (0, 0) {
        expression(w, r, true, wild);
    }
}

/// A base address, often where sums wrap or at the tombstone bound.
fn base(r: &mut Random, size: u8, wild: Wild) -> u64 {
    match r.below(8) {
        _ if wild == Wild::Tame => tame(r, size),
        0 => top(size) - r.below(5),
        1 | 2 => top(size) - r.below(0x80),
        3 | 4 => number(r, size),
        _ => tame(r, size),
    }
}

fn some_version(r: &mut Random) -> u16 {
    match r.below(32) {
        0 => r.pick(&[0, 1, 7, 0xffff]),
        1..=3 => 2,
        4..=6 => 3,
        7..=13 => 4,
        14..=17 => 6,
        _ => 5,
    }
}

/// An address table's bytes, its base, and its number of entries.
fn table(r: &mut Random, size: u8, big_endian: bool, wild: Wild) -> (Writer, u64, u64) {
    let mut w = Writer::new(Vec::new(), big_endian);
    if r.one_in(1, 12) {
        return (w, r.pick(&[0, 0, 1, 8]), 0);
    }
    let count = r.below(9);
    if r.one_in(3, 4) {
        let dwarf64 = r.one_in(1, 4);
        let length = 4 + count * u64::from(size);
        if dwarf64 {
            w.fixed(0xffffffff, 4);
        }
        w.fixed(length, if dwarf64 { 8 } else { 4 });
        w.fixed(5, 2);
        w.fixed(u64::from(size), 1);
        w.fixed(0, 1);
    }
    let start = w.out.len() as u64;
    let mut address = tame(r, size);
    for _ in 0..count {
        w.address(address, size);
        address = if wild == Wild::Tame || r.one_in(1, 2) {
            address.wrapping_add(1 + r.below(0x20))
        } else {
            base(r, size, wild)
        };
    }
    // A cut last row, or bytes behind the table.
    match r.below(8) {
        0 => drop(w.out.pop()),
        1 => {
            let more = r.below(9);
            w.out.extend(r.bytes(more));
        }
        _ => {}
    }
    let length = w.out.len() as u64;
    let at = if wild == Wild::Tame || r.one_in(7, 8) {
        start
    } else {
        match r.below(5) {
            0 => 0,
            1 => length,
            2 => length + 1,
            3 => number(r, 8),
            _ => r.below(length + 1),
        }
    };
    (w, at, count)
}

/// Cuts, changes, takes out and puts in bytes.
fn damage(r: &mut Random, bytes: &mut Vec<u8>) {
    for _ in 0..1 + r.below(3) {
        if bytes.is_empty() {
            return;
        }
        let at = r.below(bytes.len() as u64) as usize;
        match r.below(6) {
            0 => bytes.truncate(at),
            1 => bytes[at] ^= 1 << r.below(8),
            2 => bytes[at] = r.pick(&[0, 1, 2, 4, 7, 8, 9, 0x7f, 0x80, 0xfe, 0xff]),
            3 => bytes[at] = r.next() as u8,
            4 => drop(bytes.remove(at)),
            _ => bytes.insert(at, r.next() as u8),
        }
    }
}

/// A list with what its reading depends on; its section and its table are
/// under way.
fn list(r: &mut Random, size: u8, wild: Wild) -> (ListCase, Writer, Writer) {
    let big_endian = r.one_in(1, 2);
    let (table, table_base, count) = table(r, size, big_endian, wild);
    let mut list = ListCase {
        kind: r.pick(&KINDS),
        old: Vec::new(),
        new: Vec::new(),
        offset: 0,
        version: some_version(r),
        address_size: size,
        dwarf64: r.one_in(1, 4),
        big_endian,
        base_address: base(r, size, wild),
        table: Vec::new(),
        table_base,
    };
    list.offset = r.below(3) * r.below(12);
    let mut w = Writer::new(r.bytes(list.offset), big_endian);
    let bare = is_bare(&list);
    let entries = match r.below(400) {
        0 => 1000 + r.below(60),
        1..=20 => 20 + r.below(60),
        _ => r.below(9),
    };
    for _ in 0..entries {
        if wild == Wild::Broken && r.one_in(1, 40) {
            // A kind that doesn't exist, or an end mark on the way.
            w.out.push(r.pick(&[0, 8, 9, 10, 0x10, 0x7f, 0x80, 0xff]));
        }
        if bare {
            bare_entry(&mut w, r, &list, wild);
        } else {
            kind_entry(&mut w, r, &list, count, wild);
        }
    }
    if r.one_in(7, 8) {
        end_mark(&mut w, &list);
    }
    (list, w, table)
}

/// Whether the entries are bare pairs.
fn is_bare(list: &ListCase) -> bool {
    list.version <= 4 && list.kind != Kind::SplitLocations
}

fn end_mark(w: &mut Writer, list: &ListCase) {
    if is_bare(list) {
        (0..2).for_each(|_| w.address(0, list.address_size));
    } else {
        w.out.push(0);
    }
}

/// A list of size 3, and the same list of size 4. Some lack their last byte, or
/// have a 9 there, which is an unknown kind in place of the end mark.
pub fn widened(seed: u64) -> Option<[ListCase; 2]> {
    let r = &mut Random::new(seed);
    let wild = r.pick(&[Wild::Tame, Wild::Edges]);
    let (list, mut w, table) = list(r, 3, wild);
    let last = r.below(8);
    if last < 3 {
        w.out.pop();
    }
    if last < 2 {
        w.out.push(9);
    }
    let of = |address_size, section: Vec<u8>, table| ListCase {
        address_size,
        old: section.clone(),
        new: section,
        table,
        ..list
    };
    let four = of(4, w.widened()?, table.widened()?);
    Some([of(3, w.out, table.out), four])
}

/// A list, plain or damaged, with what its reading depends on.
pub fn list_case(r: &mut Random, sizes: &[u8]) -> ListCase {
    let wild = r.pick(&[Wild::Tame, Wild::Edges, Wild::Edges, Wild::Broken]);
    let size = r.pick(sizes);
    let (mut list, mut w, table) = list(r, size, wild);
    list.table = table.out;
    if r.one_in(1, 3) {
        let after = r.below(12);
        w.out.extend(r.bytes(after));
    }
    if wild == Wild::Broken && r.one_in(1, 2) || r.one_in(1, 16) {
        damage(r, &mut w.out);
    }
    let length = w.out.len() as u64;
    list.offset = match r.below(64) {
        0 => length,
        1 => length + 1,
        2 => r.pick(&[1 << 32, 1 << 63, u64::MAX, u64::MAX - 1]),
        3 => r.below(length + 1),
        4 => number(r, 4),
        _ => list.offset,
    };
    // The section that isn't chosen holds something else.
    let other_length = r.below(24);
    let other = r.bytes(other_length);
    (list.old, list.new) = if list.version <= 4 { (w.out, other) } else { (other, w.out) };
    list
}

/// A list with many padded numbers, whole, cut or damaged behind its beginning.
pub fn padded_list(seed: u64) -> ListCase {
    let r = &mut Random::new(seed);
    let size = r.pick(&READ);
    let (mut list, mut w, table) = list(r, size, Wild::Padded);
    list.table = table.out;
    let start = list.offset as usize;
    let mut entries = w.out.split_off(start);
    match r.below(8) {
        0 => entries.truncate(r.below(entries.len() as u64 + 1) as usize),
        1 => damage(r, &mut entries),
        _ => {}
    }
    w.out.extend(entries);
    (list.old, list.new) =
        if list.version <= 4 { (w.out, Vec::new()) } else { (Vec::new(), w.out) };
    list
}

/// A location list with default locations, which compilers don't write: first, in
/// the middle, last, or several of them, among entries of the other kinds, some of
/// which have the bounds of a default location, or nearly. What follows is an end
/// mark, the section's end, or damage. One list in sixteen is of bare pairs, none of
/// which is a default location, whatever its bounds.
pub fn default_list(seed: u64) -> ListCase {
    let r = &mut Random::new(seed);
    let size = r.pick(&[1, 2, 3, 4, 4, 8, 8, 8]);
    let wild = r.pick(&[Wild::Tame, Wild::Tame, Wild::Edges]);
    let (kind, versions) = match r.below(16) {
        0 => (Kind::Locations, [2, 3, 4, 4]),
        1..=7 => (Kind::Locations, [5, 5, 5, 6]),
        _ => (Kind::SplitLocations, [2, 3, 4, 5]),
    };
    let mut list = ListCase {
        kind,
        old: Vec::new(),
        new: Vec::new(),
        offset: r.below(3),
        version: r.pick(&versions),
        address_size: size,
        dwarf64: r.one_in(1, 4),
        big_endian: r.one_in(1, 2),
        base_address: if r.one_in(1, 3) { 0 } else { base(r, size, wild) },
        table: Vec::new(),
        table_base: r.below(3),
    };
    let rows = table_of_ends(r, &mut list);
    let mut w = Writer::new(r.bytes(list.offset), list.big_endian);
    let count = 1 + r.below(6) as usize;
    let mut defaults = vec![false; count];
    for _ in 0..r.pick(&[1, 1, 2, 3]) {
        let any = r.below(count as u64) as usize;
        defaults[r.pick(&[0, 0, count / 2, count - 1, any])] = true;
    }
    for default in defaults {
        match r.below(8) {
            _ if default && !is_bare(&list) => entry_of(DEFAULT, &mut w, r, &list, rows, wild),
            0 | 1 => wide_entry(&mut w, r, &list, wild),
            _ => bounded_entry(&mut w, r, &list, rows, wild),
        }
    }
    behind_defaults(&mut w, r, &list, rows, wild);
    (list.old, list.new) =
        if list.version <= 4 { (w.out, Vec::new()) } else { (Vec::new(), w.out) };
    list
}

/// An address table whose first two rows are 0 and the largest address; the number
/// of its rows.
fn table_of_ends(r: &mut Random, list: &mut ListCase) -> u64 {
    let (size, some) = (list.address_size, r.below(4));
    let mut table = Writer::new(r.bytes(list.table_base), list.big_endian);
    table.address(0, size);
    table.address(top(size), size);
    for _ in 0..some {
        let row = tame(r, size);
        table.address(row, size);
    }
    list.table = table.out;
    2 + some
}

/// A bare pair, or an entry of any kind but a default location.
fn bounded_entry(w: &mut Writer, r: &mut Random, list: &ListCase, rows: u64, wild: Wild) {
    if is_bare(list) {
        bare_entry(w, r, list, wild);
    } else {
        let meaning = r.pick(&[1, 2, 3, 4, 4, 4, 6, 7, 7, 8, 8]);
        entry_of(meaning, w, r, list, rows, wild);
    }
}

/// A bounded entry of all addresses, which at size 8 has the bounds of a default
/// location; or of one less at an end.
fn wide_entry(w: &mut Writer, r: &mut Random, list: &ListCase, wild: Wild) {
    let size = list.address_size;
    let (later, sooner) = (r.one_in(1, 8), r.one_in(1, 8));
    let (begin, end) = (u64::from(later), top(size) - u64::from(sooner));
    let from_base = |address: u64| address.wrapping_sub(list.base_address);
    if is_bare(list) {
        w.address(from_base(begin), size);
        w.address(from_base(end), size);
        return expression(w, r, true, wild);
    }
    let (meaning, first, second) = r.pick(&[
        (2, 0, 1),
        (3, 0, end),
        (4, from_base(begin), from_base(end)),
        (7, begin, end),
        (8, begin, end - begin),
    ]);
    entry_with(meaning, first, |_| second, w, r, list, wild);
}

/// What follows the entries: an end mark, the section's end, an entry that is cut,
/// or, where there are kinds, an unknown one, a number that is too long, or an index
/// past the table's end. Half of the lists go on behind it.
fn behind_defaults(w: &mut Writer, r: &mut Random, list: &ListCase, rows: u64, wild: Wild) {
    let coded = !is_bare(list);
    match r.below(16) {
        0..=5 => end_mark(w, list),
        6 | 7 => return,
        8 | 9 if coded => w.out.push(r.pick(&[9, 0x7f, 0xff])),
        10 if coded => w.out.extend([[4].as_slice(), &[0x80; 9], &[2]].concat()),
        11..=13 if coded => {
            let (meaning, first, second) =
                r.pick(&[(1, rows, 0), (2, rows + 1, 0), (2, 0, rows), (3, rows, 1)]);
            entry_with(meaning, first, |_| second, w, r, list, wild);
        }
        _ => {
            let start = w.out.len();
            if coded && r.one_in(1, 2) {
                entry_of(DEFAULT, w, r, list, rows, wild);
            } else {
                bounded_entry(w, r, list, rows, wild);
            }
            let length = (w.out.len() - start) as u64;
            return w.out.truncate(start + 1 + r.below(length - 1) as usize);
        }
    }
    if r.one_in(1, 2) {
        bounded_entry(w, r, list, rows, wild);
        end_mark(w, list);
    }
}

/// An address at the tombstone bound or one off, or a small one.
pub fn near_bound(r: &mut Random, size: u8) -> u64 {
    match r.below(16) {
        at @ 0..3 => top(size) - at,
        _ => tame(r, size),
    }
}

/// A base address that may be wider than the size, too.
pub fn base_near_bound(r: &mut Random, size: u8) -> u64 {
    let base = near_bound(r, size);
    if r.one_in(1, 16) { base.wrapping_add(top(size)).wrapping_add(1) } else { base }
}

/// A begin and an end of the profile: in order, equal, or backward by one or by more.
fn bounds(r: &mut Random, size: u8) -> (u64, u64) {
    let begin = near_bound(r, size);
    let end = match r.below(16) {
        0 | 1 => begin,
        2 => begin.wrapping_sub(1),
        3 => near_bound(r, size),
        4 => top(size) - r.below(3),
        _ => begin + 1 + r.below(0x20),
    };
    (begin, end & top(size))
}

/// A number that comes to another with what it is added to; now and then wider than
/// the size.
fn apart(r: &mut Random, from: u64, to: u64, size: u8) -> u64 {
    let apart = to.wrapping_sub(from);
    if r.one_in(1, 16) { apart } else { apart & top(size) }
}

/// A list at the borders of the profile: addresses and base addresses at the
/// tombstone bound and next to it, ranges that are empty or backward, sums that wrap,
/// lookups that fail, and few enough padded numbers that the rest is come to. Some
/// lists are cut or damaged.
pub fn profile_list(r: &mut Random) -> ListCase {
    let size = r.pick(&READ);
    let mut list = ListCase {
        kind: r.pick(&KINDS),
        old: Vec::new(),
        new: Vec::new(),
        offset: r.below(3),
        version: some_version(r),
        address_size: size,
        dwarf64: r.one_in(1, 4),
        big_endian: r.one_in(1, 2),
        base_address: base_near_bound(r, size),
        table: Vec::new(),
        table_base: r.below(3),
    };
    let mut table = Writer::new(r.bytes(list.table_base), list.big_endian);
    let rows: Vec<u64> = (0..r.below(6)).map(|_| near_bound(r, size)).collect();
    rows.iter().for_each(|&row| table.address(row, size));
    list.table = table.out;
    let mut w = Writer::new(r.bytes(list.offset), list.big_endian);
    let mut base = list.base_address;
    for _ in 0..r.below(8) {
        profile_entry(&mut w, r, &list, &rows, &mut base);
    }
    if r.one_in(7, 8) {
        end_mark(&mut w, &list);
    }
    let mut entries = w.out.split_off(list.offset as usize);
    match r.below(16) {
        0 => entries.truncate(r.below(entries.len() as u64 + 1) as usize),
        1 => damage(r, &mut entries),
        _ => {}
    }
    w.out.extend(entries);
    let other_length = r.below(24);
    let other = r.bytes(other_length);
    (list.old, list.new) = if list.version <= 4 { (w.out, other) } else { (other, w.out) };
    list
}

/// One entry of such a list.
fn profile_entry(w: &mut Writer, r: &mut Random, list: &ListCase, rows: &[u64], base: &mut u64) {
    let size = list.address_size;
    let (begin, end) = bounds(r, size);
    let (first, second) = (apart(r, *base, begin, size), apart(r, *base, end, size));
    if is_bare(list) {
        if r.one_in(1, 6) {
            *base = begin;
            w.ones(size);
            return w.address(begin, size);
        }
        w.address(first, size);
        w.address(second, size);
        if list.kind == Kind::Locations {
            expression(w, r, true, Wild::Given);
        }
        return;
    }
    let index = |r: &mut Random| match r.below(16) {
        0 => rows.len() as u64 + r.below(2),
        1 => (1u128 << 64).div_ceil(u128::from(size)) as u64,
        _ => r.below(rows.len().max(1) as u64),
    };
    let (i, j, length) = (index(r), index(r), apart(r, begin, end, size));
    let row = |index| rows.get(index as usize).copied().unwrap_or(*base);
    let from_row = apart(r, row(i), end, size);
    let (meaning, first, second) = match r.pick(&[1, 2, 2, 3, 4, 4, 4, 4, 4, DEFAULT, 6, 6, 7, 8]) {
        1 => {
            *base = row(i);
            (1, i, 0)
        }
        2 => (2, i, j),
        3 => (3, i, from_row),
        4 => (4, first, second),
        DEFAULT if list.kind == Kind::Ranges => (7, begin, end),
        6 => {
            *base = begin;
            (6, begin, 0)
        }
        8 => (8, begin, length),
        meaning => (meaning, begin, end),
    };
    entry_with(meaning, first, |_| second, w, r, list, Wild::Given);
}

/// The fixed table of kind numbers: every kind is its own code.
pub const FIXED: [u8; 256] = {
    let mut table = [0xff; 256];
    let mut kind = 0;
    while kind < 8 {
        table[kind] = kind as u8;
        kind += 1;
    }
    table
};

/// A table of kind numbers that may be loaded: each kind, or some with kind 0 among
/// them, at a code of its own, low or any.
pub fn lawful_table(r: &mut Random) -> Vec<u8> {
    let mut table = vec![0xff; 256];
    let (below, all) = (r.pick(&[8, 16, 256, 256]), r.one_in(1, 2));
    for kind in 0..8 {
        if kind > 0 && !all && r.one_in(1, 3) {
            continue;
        }
        let code = |r: &mut Random| match r.below(16) {
            0 => r.pick(&[0x7f, 0x80, 0xfe, 0xff]),
            _ => r.below(below) as usize,
        };
        let mut at = code(r);
        while table[at] != 0xff {
            at = code(r);
        }
        table[at] = kind;
    }
    table
}

/// Any table: one that may be loaded, or one that may not, by its length, by numbers
/// that aren't kinds, by kinds at many codes, or by all of it. What it is cut from
/// lies behind a short one. Some are bytes of the list that they are for.
pub fn any_table(r: &mut Random, section: &[u8]) -> Vec<u8> {
    let mut table = match r.below(12) {
        0 => FIXED.to_vec(),
        1..=5 => lawful_table(r),
        6 | 7 => (0..256).map(|_| r.below(8) as u8).collect(),
        8 => (0..256).map(|_| r.pick(&[0, 1, 4, 5, 6, 7, 8, 9, 0x7f, 0x80, 0xfe, 0xff])).collect(),
        9 => vec![r.pick(&[0, 1, 2, 3, 4, 5, 6, 7, 8, 0xfe, 0xff]); 256],
        10 => section.to_vec(),
        _ => r.bytes(256),
    };
    match r.below(16) {
        0 | 1 => table.truncate(r.below(20) as usize),
        2 => table.truncate(r.below(257) as usize),
        3 => {
            let more = r.pick(&[1, 1, 7, 256]);
            table.extend(r.bytes(more));
        }
        4 | 5 => damage_numbers(r, &mut table),
        _ => {}
    }
    table
}

/// Puts other numbers at a few codes, or lets two codes change places.
fn damage_numbers(r: &mut Random, table: &mut [u8]) {
    if table.is_empty() {
        return;
    }
    for _ in 0..1 + r.below(3) {
        let mut at = || r.below(table.len() as u64) as usize;
        let (one, other) = (at(), at());
        match r.below(4) {
            0 => table.swap(one, other),
            1 => table[one] = r.below(8) as u8,
            2 => table[one] = 8 + r.below(0xf7) as u8,
            _ => table[one] = 0xff,
        }
    }
}

/// A range list, of bare pairs or of entries with kinds.
pub fn range_list(r: &mut Random, sizes: &[u8], bare: bool) -> ListCase {
    loop {
        let list = list_case(r, sizes);
        if list.kind == Kind::Ranges && (list.version <= 4) == bare {
            return list;
        }
    }
}

/// Bytes of which half are taken from some.
pub fn bytes_of(r: &mut Random, some: &[u8]) -> Vec<u8> {
    let length = r.below(40);
    let byte = |r: &mut Random| match r.below(4) {
        0 => r.next() as u8,
        1 => r.below(10) as u8,
        _ => r.pick(some),
    };
    (0..length).map(|_| byte(r)).collect()
}

/// The length of the section that is chosen.
fn length(list: &ListCase) -> u64 {
    if list.version <= 4 { list.old.len() as u64 } else { list.new.len() as u64 }
}

/// Raw entries made by hand.
pub fn convert_case(r: &mut Random, sizes: &[u8]) -> ConvertCase {
    let mut list = list_case(r, sizes);
    list.offset = r.below(length(&list) + 1);
    let entries = (0..1 + r.below(12)).map(|_| raw_case(r, &list)).collect();
    ConvertCase { list, entries }
}

/// One of them, also with numbers wider than the address size.
pub fn raw_case(r: &mut Random, list: &ListCase) -> RawCase {
    let (size, length) = (list.address_size, length(list));
    let count = list.table.len() as u64 / u64::from(size);
    let located = list.kind != Kind::Ranges;
    let form =
        r.pick(if located { &[0, 1, 2, 3, 4, 5, 6, 7, 8] } else { &[0, 1, 2, 3, 4, 5, 7, 8] });
    let (begin, end) = pair(r, size, Wild::Edges);
    let offset = r.below(length + 1);
    let expression = (offset, r.below(length - offset + 1));
    let (first, second) = match form {
        1 => (base(r, size, Wild::Edges), 0),
        2 => (index(r, count, size, Wild::Edges), 0),
        3 => (index(r, count, size, Wild::Edges), index(r, count, size, Wild::Edges)),
        4 => (index(r, count, size, Wild::Edges), some_number(r, size, Wild::Edges)),
        6 => (0, 0),
        8 => (begin, some_number(r, size, Wild::Edges)),
        _ => (begin, end),
    };
    RawCase { form, first, second, expression }
}

/// An address lookup; other sizes are among them.
pub fn address_case(r: &mut Random, sizes: &[u8]) -> AddressCase {
    let size = r.pick(sizes);
    let big_endian = r.one_in(1, 2);
    let (table, base, count) = table(r, size, big_endian, Wild::Edges);
    let address_size = if r.one_in(1, 8) { r.next() as u8 >> r.below(8) } else { size };
    let index = index(r, count, address_size.max(1), Wild::Edges);
    AddressCase { table: table.out, big_endian, address_size, base, index }
}

/// A header with its tail, good or with one field off. `count` is the field
/// that only a lists section has.
fn header(
    w: &mut Writer,
    r: &mut Random,
    size: u8,
    dwarf64: bool,
    count: Option<u32>,
    tail: &[u8],
) {
    let fault = if r.one_in(1, 2) { r.below(7) } else { 9 };
    let rest = 4 + if count.is_some() { 4 } else { 0 } + tail.len() as u64;
    if fault == 0 {
        w.fixed(0xfffffff0 + r.below(16), 4);
    } else if dwarf64 {
        w.fixed(0xffffffff, 4);
    }
    let length = match (fault, r.below(5)) {
        (1, 0) => rest - 1,
        (1, 1) => rest + 1,
        (1, 2) => r.below(rest),
        (1, 3) => number(r, 4),
        (1, _) => r.pick(&[0xffffffef, 0xffffffff, 1 << 63, u64::MAX, u64::MAX - 11]),
        _ => rest,
    };
    w.fixed(length, if dwarf64 { 8 } else { 4 });
    w.fixed(if fault == 2 { r.pick(&[0, 2, 4, 6, 0x500, 0xffff]) } else { 5 }, 2);
    let size = if fault == 3 { r.pick(&[0, 3, 5, 6, 7, 9, 16, 255]) } else { size };
    w.fixed(u64::from(size), 1);
    w.fixed(if fault == 4 { r.pick(&[1, 2, 4, 128, 255]) } else { 0 }, 1);
    if let Some(count) = count {
        w.fixed(u64::from(count), 4);
    }
    w.out.extend(tail);
    if fault == 5 {
        damage(r, &mut w.out);
    }
    if fault == 6 {
        // Two faults at once: the order of the checks.
        let at = w.out.len().saturating_sub(tail.len() + 8);
        for byte in w.out.iter_mut().skip(at).take(8) {
            if r.one_in(1, 3) {
                *byte = r.pick(&[0, 1, 3, 5, 255]);
            }
        }
    }
}

/// Address tables, one behind the other.
pub fn tables_case(r: &mut Random, sizes: &[u8]) -> SectionCase {
    let big_endian = r.one_in(1, 2);
    let mut w = Writer::new(Vec::new(), big_endian);
    for _ in 0..r.below(4) {
        let size = r.pick(sizes);
        let count = r.below(5) * u64::from(size) + r.pick(&[0, 0, 0, 0, 0, 0, 1, 3]);
        let tail = r.bytes(count);
        let dwarf64 = r.one_in(1, 3);
        header(&mut w, r, size, dwarf64, None, &tail);
    }
    if r.one_in(1, 8) {
        let more = r.below(9);
        w.out.extend(r.bytes(more));
    }
    SectionCase { section: w.out, big_endian }
}

/// A lists section's header.
pub fn lists_case(r: &mut Random, sizes: &[u8]) -> SectionCase {
    let big_endian = r.one_in(1, 2);
    let mut w = Writer::new(Vec::new(), big_endian);
    let tail_length = r.below(20);
    let tail = r.bytes(tail_length);
    let count = r.next() as u32 >> r.below(32);
    let (size, dwarf64) = (r.pick(sizes), r.one_in(1, 2));
    header(&mut w, r, size, dwarf64, Some(count), &tail);
    if r.one_in(1, 4) {
        let more = r.below(9);
        w.out.extend(r.bytes(more));
    }
    if r.one_in(1, 6) {
        let cut = r.below(w.out.len() as u64 + 1) as usize;
        w.out.truncate(cut);
    }
    SectionCase { section: w.out, big_endian }
}

/// A lookup of a list's offset.
pub fn offset_case(r: &mut Random) -> OffsetCase {
    let (big_endian, dwarf64) = (r.one_in(1, 2), r.one_in(1, 2));
    let word = if dwarf64 { 8 } else { 4 };
    let mut w = Writer::new(Vec::new(), big_endian);
    let start = if r.one_in(3, 4) { if dwarf64 { 20 } else { 12 } } else { r.below(30) };
    w.out = r.bytes(start);
    let count = r.below(6);
    for _ in 0..count {
        let offset = if r.one_in(2, 3) { r.below(0x400) } else { number(r, word) };
        w.fixed(offset, word);
    }
    if r.one_in(1, 6) {
        w.out.pop();
    }
    let length = w.out.len() as u64;
    let base = match r.below(12) {
        0 => length,
        1 => length + 1,
        2 => number(r, 8),
        3 => r.below(length + 1),
        _ => start,
    };
    let index = index(r, count, word, Wild::Edges);
    OffsetCase { kind: r.pick(&KINDS[..2]), section: w.out, big_endian, dwarf64, base, index }
}

/// Bytes read as an unsigned LEB128 number.
pub fn leb128_case(r: &mut Random) -> Vec<u8> {
    let mut w = Writer::new(Vec::new(), false);
    match r.below(4) {
        0 => {
            let value = number(r, 8);
            w.number(r, value, Wild::Broken);
        }
        1 => {
            // Nine bytes that go on, then any tenth.
            w.out = r.bytes(9).iter().map(|byte| byte | 0x80).collect();
            w.out.push(if r.one_in(1, 2) { r.below(4) as u8 } else { r.next() as u8 });
        }
        2 => {
            let length = r.below(13);
            w.out = r.bytes(length);
            for byte in &mut w.out {
                *byte |= if r.one_in(3, 4) { 0x80 } else { 0 };
            }
        }
        _ => {
            let value = number(r, 8);
            w.leb128(value, 1 + r.below(10) as usize);
            let cut = r.below(w.out.len() as u64 + 1) as usize;
            w.out.truncate(cut);
        }
    }
    let more = r.below(4);
    w.out.extend(r.bytes(more));
    w.out
}

/// Bytes read as an unsigned LEB128 number, mostly a padded one: of each length,
/// by 0 to 9 bytes, and so past the tenth; with each sort of tenth byte; or of
/// bytes that pad or end a number.
pub fn padded_number(seed: u64) -> Vec<u8> {
    let r = &mut Random::new(seed);
    let mut w = Writer::new(Vec::new(), false);
    match r.below(4) {
        0 | 1 => {
            let width = 1 + r.below(10);
            let least = 1 << (7 * (width - 1)) & !1;
            let most = u64::MAX >> 64u64.saturating_sub(7 * width);
            let value = match r.below(4) {
                0 => least,
                1 => most,
                _ => least + r.below(most - least + 1),
            };
            w.leb128(value, (width + r.below(10)) as usize);
        }
        2 => {
            let bytes = r.bytes(9);
            let zeros = r.below(10) as usize;
            w.out.extend(bytes.iter().map(|byte| byte | 0x80));
            w.out[9 - zeros..].fill(0x80);
            w.out.push(r.pick(&[0x00, 0x01, 0x02, 0x7f, 0x80, 0x81, 0xff]));
        }
        _ => {
            let length = 1 + r.below(12);
            w.out.extend((0..length).map(|_| r.pick(&[0, 1, 0x7f, 0x80, 0x80, 0x80, 0x81, 0xff])));
        }
    }
    if r.one_in(1, 8) {
        let cut = r.below(w.out.len() as u64) as usize;
        w.out.truncate(cut);
    } else {
        let more = r.below(4);
        w.out.extend(r.bytes(more));
    }
    w.out
}

/// Bytes for the fixed-width reads, and a count to skip, split or keep.
pub fn bytes_case(r: &mut Random, sizes: &[u8]) -> BytesCase {
    let length = r.below(16);
    let mut bytes = r.bytes(length);
    if r.one_in(1, 3) {
        let high = r.pick(&[0xef, 0xf0, 0xf1, 0xfe, 0xff]);
        bytes.iter_mut().take(4).for_each(|byte| *byte = 0xff);
        let at = r.pick(&[0, 3]);
        if let Some(byte) = bytes.get_mut(at) {
            *byte = high;
        }
    }
    let length = bytes.len() as u64;
    let count = match r.below(4) {
        0 => number(r, 8),
        1 => length + r.below(2),
        _ => r.below(length + 1),
    };
    BytesCase { bytes, big_endian: r.one_in(1, 2), width: r.pick(sizes), count }
}
