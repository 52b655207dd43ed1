//! Lists, coverages and sheets built for the calls of `added`: many ranges in
//! every order, overlapping, touching, twice the same; coverages made by hand;
//! sheets with each field damaged.

use generator::{Kind, ListCase, Random};

use crate::added::{self, Added, BEFORE, Kept, MOST, Ranges};
use crate::differ::{Met, list_of};

/// All calls of a seed's case.
pub fn compare(port: &impl Added, seed: u64, met: &mut Met) -> Result<(), String> {
    let r = &mut Random::new(seed ^ 0x6275_696c_74);
    match seed % 8 {
        0..=3 => list(port, r, &[1, 2, 4, 4, 8, 8, 8], met),
        4 | 5 => {
            let (n, kept) = by_hand(r);
            added::handed_in(port, n, &kept, r, true, met)
        }
        6 => sheets(port, r, met),
        _ => canonicals(port, r, met),
    }
}

/// All calls about a list of one of the sizes.
pub fn list(port: &impl Added, r: &mut Random, sizes: &[u8], met: &mut Met) -> Result<(), String> {
    let case = list_case(r, sizes);
    met.measured_at(case.address_size, |met| added::list(port, &list_of(&case), r, true, met))
}

/// How many ranges: few, some, or around the most that are held, or were
/// before.
fn how_many(r: &mut Random) -> usize {
    match r.below(8) {
        0 => r.pick(&[0, 1, 2]),
        1..=4 => 1 + r.below(40) as usize,
        5 => 1 + r.below(MOST as u64 * 5 / 4) as usize,
        6 => r.pick(&[BEFORE - 2, BEFORE - 1, BEFORE, BEFORE + 1, BEFORE + 2, 2 * MOST + 1]),
        _ => r.pick(&[MOST - 2, MOST - 1, MOST, MOST + 1, MOST + 2]),
    }
}

/// How a range stands to the one before.
#[derive(Clone, Copy)]
enum Shape {
    Apart,
    Touching,
    Overlapping,
    Inside,
    Same,
    Anywhere,
}

const SHAPES: [Shape; 6] = [
    Shape::Apart,
    Shape::Touching,
    Shape::Overlapping,
    Shape::Inside,
    Shape::Same,
    Shape::Anywhere,
];

/// Ranges below `top`, none empty, ascending but where the shape says
/// otherwise.
fn some_ranges(r: &mut Random, count: usize, top: u64) -> Ranges {
    // Apart more often than otherwise, so that many ranges make many runs.
    let only = match r.below(4) {
        0 | 1 => Some(r.pick(&SHAPES)),
        2 => Some(Shape::Apart),
        _ => None,
    };
    let wide = r.pick(&[1, 4, 0x90]);
    let (mut begin, mut end) = (r.below(8), 9 + r.below(wide));
    let mut ranges = Ranges::new();
    while ranges.len() < count {
        ranges.push((begin, end));
        let shape = only.unwrap_or_else(|| r.pick(&SHAPES));
        (begin, end) = match shape {
            Shape::Apart => (end + 1 + r.below(3), end + 4 + r.below(wide)),
            Shape::Touching => (end, end + 1 + r.below(wide)),
            Shape::Overlapping => (end - 1, end + 1 + r.below(wide)),
            Shape::Inside => (begin, begin + 1 + r.below(end - begin)),
            Shape::Same => (begin, end),
            Shape::Anywhere => {
                let begin = r.next() % (top / 2);
                (begin, begin + 1 + r.below(wide) + (r.next() % (top / 4) >> r.below(64)))
            }
        };
        if end >= top {
            (begin, end) = (r.below(8), 9 + r.below(wide));
        }
    }
    ranges
}

/// Ascending as they are, descending, or shuffled, wholly or a little.
fn order(r: &mut Random, ranges: &mut Ranges) {
    let count = ranges.len() as u64;
    let swaps = match r.below(4) {
        0 => return,
        1 => return ranges.reverse(),
        2 => 3,
        _ => 2 * count,
    };
    for _ in 0..swaps.min(count) {
        ranges.swap(r.below(count) as usize, r.below(count) as usize);
    }
}

/// The bytes of a list under way.
struct Writer<'a> {
    list: &'a ListCase,
    out: Vec<u8>,
}

impl Writer<'_> {
    fn fixed(&mut self, value: u64, width: u8) {
        let mut bytes = value.to_le_bytes()[..usize::from(width)].to_vec();
        if self.list.big_endian {
            bytes.reverse();
        }
        self.out.extend(bytes);
    }

    fn leb128(&mut self, mut value: u64) {
        while value >= 0x80 {
            self.out.push(value as u8 | 0x80);
            value >>= 7;
        }
        self.out.push(value as u8);
    }

    fn bare(&self) -> bool {
        self.list.version <= 4 && self.list.kind != Kind::SplitLocations
    }

    /// The code of a location kind, which is one higher from 5 on.
    fn kind(&mut self, meaning: u8) {
        let located = self.list.kind != Kind::Ranges;
        self.out.push(if located || meaning < 5 { meaning } else { meaning - 1 });
    }

    fn expression(&mut self, r: &mut Random) {
        if self.list.kind == Kind::Ranges {
            return;
        }
        let length = r.below(3);
        if self.list.version <= 4 {
            self.fixed(length, 2);
        } else {
            self.leb128(length);
        }
        (0..length).for_each(|_| self.out.push(r.next() as u8));
    }

    /// An entry that yields the range: the base address is 0.
    fn range(&mut self, r: &mut Random, (begin, end): (u64, u64)) {
        let size = self.list.address_size;
        if self.bare() {
            self.fixed(begin, size);
            self.fixed(end, size);
            return self.expression(r);
        }
        let meaning = r.pick(&[4, 7, 8]);
        self.kind(meaning);
        match meaning {
            4 => {
                self.leb128(begin);
                self.leb128(end);
            }
            7 => {
                self.fixed(begin, size);
                self.fixed(end, size);
            }
            _ => {
                self.fixed(begin, size);
                self.leb128(end - begin);
            }
        }
        self.expression(r);
    }

    /// An entry that yields nothing: an empty range, or a dead one.
    fn nothing(&mut self, r: &mut Random) {
        let size = self.list.address_size;
        let top = u64::MAX >> (64 - 8 * u32::from(size));
        let begin = r.pick(&[1, 0x40, top - 1]);
        let (begin, end) = (begin, begin + u64::from(begin == top - 1));
        if !self.bare() {
            self.kind(7);
        }
        self.fixed(begin, size);
        self.fixed(end, size);
        self.expression(r);
    }

    fn end(&mut self) {
        if self.bare() {
            self.fixed(0, self.list.address_size);
            self.fixed(0, self.list.address_size);
        } else {
            self.out.push(0);
        }
    }
}

/// A list of many ranges, with entries that yield nothing between them, and
/// now and then one that is refused at or near its end.
pub fn list_case(r: &mut Random, sizes: &[u8]) -> ListCase {
    list_case_of(r, sizes, how_many)
}

/// The same with so many ranges.
pub fn list_case_of(
    r: &mut Random,
    sizes: &[u8],
    how_many: impl FnOnce(&mut Random) -> usize,
) -> ListCase {
    let address_size = r.pick(sizes);
    let mut list = ListCase {
        kind: r.pick(&generator::KINDS),
        old: Vec::new(),
        new: Vec::new(),
        offset: r.below(20),
        version: r.pick(&[2, 3, 4, 5, 5, 5, 6]),
        address_size,
        dwarf64: r.one_in(1, 2),
        big_endian: r.one_in(1, 2),
        base_address: 0,
        table: Vec::new(),
        table_base: 0,
    };
    let count = how_many(r);
    let mut ranges = some_ranges(r, count, (u64::MAX >> (64 - 8 * u32::from(address_size))) - 2);
    order(r, &mut ranges);
    let before = vec![0x55; list.offset as usize];
    let mut w = Writer { list: &list, out: before };
    let (gaps, refused) = (r.one_in(1, 2), r.one_in(1, 6));
    // Where a refused entry stands: among the ranges, or behind the last.
    let at = if r.one_in(1, 2) { r.below(count as u64 + 1) as usize } else { count };
    for (index, &range) in ranges.iter().enumerate() {
        if refused && index == at {
            break;
        }
        if gaps && r.one_in(1, 8) {
            w.nothing(r);
        }
        w.range(r, range);
    }
    if refused {
        // An unknown kind; a bare pair that is cut.
        w.out.push(9 + r.below(200) as u8);
    } else if r.one_in(7, 8) {
        w.end();
        (0..r.below(5)).for_each(|_| w.out.push(r.next() as u8));
    }
    let out = w.out;
    if list.version <= 4 {
        list.old = out
    } else {
        list.new = out
    }
    list
}

/// A lawful coverage with garbage behind it.
fn lawful(r: &mut Random) -> (usize, Kept) {
    let count = how_many(r).min(MOST);
    let (mut begin, spread) = (r.below(4), r.pick(&[2, 0x100, 1 << 40]));
    let mut kept = Kept { begins: [r.next(); MOST], ends: [r.next(); MOST] };
    for at in 0..count {
        let end = begin + 1 + r.below(spread);
        (kept.begins[at], kept.ends[at]) = (begin, end);
        begin = end + 1 + r.below(spread);
    }
    if count > 0 && r.one_in(1, 4) {
        let last = count - 1;
        kept.ends[last] = u64::MAX - r.below(3);
        if r.one_in(1, 2) {
            kept.begins[last] = u64::MAX - 3;
        }
    }
    (count, kept)
}

/// A coverage made by hand: lawful, or with one thing off.
fn by_hand(r: &mut Random) -> (u64, Kept) {
    let (count, mut kept) = lawful(r);
    let n = count as u64;
    let fault = r.below(14);
    if fault == 0 {
        let most = MOST as u64;
        let counts = [most + 1, most + 2, 0xffff, 0x10000, 1 << 32, 1 << 63, u64::MAX];
        return (r.pick(&counts), kept);
    }
    if fault == 1 {
        return (r.pick(&[(1 << 16) + n, (1 << 32) + n, u64::MAX - n]), kept);
    }
    if count == 0 {
        return (n, kept);
    }
    let at = if r.one_in(1, 3) { count - 1 } else { r.below(n) as usize };
    let before = at.saturating_sub(1);
    match fault {
        2 => kept.begins.swap(before, at),
        3 => {
            kept.begins.swap(before, at);
            kept.ends.swap(before, at);
        }
        4 => kept.begins[at] = kept.ends[before],
        5 => kept.begins[at] = kept.ends[before].wrapping_sub(1),
        6 => kept.begins[at] = kept.begins[before],
        7 => kept.ends[at] = kept.begins[at],
        8 => kept.ends[at] = kept.begins[at].wrapping_sub(1),
        9 => (kept.begins[at], kept.ends[at]) = (u64::MAX - 1, u64::MAX),
        10 => (kept.begins[at], kept.ends[at]) = (u64::MAX - 2, u64::MAX),
        11 => (kept.begins[at], kept.ends[at]) = (r.next(), r.next()),
        _ => {}
    }
    (n, kept)
}

/// A sheet as it is, and damaged in each of its fields.
fn sheets(port: &impl Added, r: &mut Random, met: &mut Met) -> Result<(), String> {
    let (count, kept) = lawful(r);
    let ranges = added::handed(count as u64, &kept).unwrap_or_default();
    let good = added::sheet(&ranges);
    added::from_sheet(port, &good, r, met)?;
    let length = good.len();
    for cut in [0, 1, 2, 3, 4, length - 1, length.saturating_sub(16), length / 2] {
        added::from_sheet(port, &good[..cut.min(length)], r, met)?;
    }
    for more in [1, 15, 16, 17] {
        let mut longer = good.clone();
        longer.extend(std::iter::repeat_n(r.next() as u8, more));
        added::from_sheet(port, &longer, r, met)?;
    }
    let field = |at: usize, bytes: &[u8]| {
        let mut sheet = good.clone();
        sheet[at..at + bytes.len()].copy_from_slice(bytes);
        sheet
    };
    let counts =
        [0, count.wrapping_sub(1), count + 1, BEFORE, BEFORE + 1, MOST, MOST + 1, 0x4000, 0xffff];
    for other in counts {
        added::from_sheet(port, &field(0, &(other as u16).to_le_bytes()), r, met)?;
    }
    for width in [0u16, 1, 4, 7, 9, 0x108, 0x800, 0xffff] {
        added::from_sheet(port, &field(2, &width.to_le_bytes()), r, met)?;
    }
    for _ in 0..if count == 0 { 0 } else { 24 } {
        let at = 4 + 8 * r.below(2 * count as u64) as usize;
        let old = u64::from_le_bytes(good[at..at + 8].try_into().expect("a word"));
        let word = match r.below(6) {
            0 => old.wrapping_add(1),
            1 => old.wrapping_sub(1),
            2 => u64::MAX - r.below(4),
            3 => old ^ 1 << r.below(64),
            4 => 0,
            _ => r.next(),
        };
        added::from_sheet(port, &field(at, &word.to_le_bytes()), r, met)?;
    }
    for count in [BEFORE, BEFORE + 1, MOST, MOST + 1] {
        full(port, count, r, met)?;
    }
    Ok(())
}

/// A sheet of as many ranges as are held, or were before, or of one more.
fn full(port: &impl Added, count: usize, r: &mut Random, met: &mut Met) -> Result<(), String> {
    let ranges: Ranges = (0..count as u64).map(|at| (4 * at, 4 * at + 1)).collect();
    added::from_sheet(port, &added::sheet(&ranges), r, met)
}

/// A canonical list as it is, cut, damaged, and with more behind it.
fn canonicals(port: &impl Added, r: &mut Random, met: &mut Met) -> Result<(), String> {
    let (count, kept) = lawful(r);
    let ranges = added::handed(count as u64, &kept).unwrap_or_default();
    let good = added::canonical(&ranges);
    added::from_canonical(port, &good, r, met)?;
    for _ in 0..6 {
        let cut = r.below(good.len() as u64 + 1) as usize;
        added::from_canonical(port, &good[..cut], r, met)?;
        let mut other = good.clone();
        let at = r.below(good.len() as u64) as usize;
        match r.below(4) {
            0 => other[at] ^= 1 << r.below(8),
            1 => other[at] = r.pick(&[0, 4, 5, 6, 7, 8, 0x80, 0xff]),
            2 => drop(other.remove(at)),
            _ => other.insert(at, r.next() as u8),
        }
        added::from_canonical(port, &other, r, met)?;
    }
    // A range list that is not the shortest: every entry twice.
    let mut twice = good[..good.len() - 1].to_vec();
    twice.extend(&good);
    added::from_canonical(port, &twice, r, met)
}
