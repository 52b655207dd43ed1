//! Coverage, runs and canonical list over gimli's walk, in plain Rust: collect,
//! sort, merge.

use crate::bench_gimli::{Lists, Order, Yields};
use oracle::read::Error;
use std::hint::black_box;

pub const MOST: usize = crate::bench_port::LIMIT;
/// No sheet is longer.
pub const LARGEST: usize = 4 + 16 * MOST;
/// No canonical list is longer: a code, an address and a length for each range.
pub const LONGEST: usize = MOST * 19 + 1;

pub struct Coverage {
    pub n: u64,
    pub begins: [u64; MOST],
    pub ends: [u64; MOST],
}

/// What is no coverage: more ranges than fit, a refused walk, an output that is
/// too short, or no sheet.
#[derive(Debug)]
pub enum Refused {
    TooManyRanges,
    Walk,
    NoSpace,
    BadSheet,
}

impl Coverage {
    pub fn new() -> Coverage {
        Coverage { n: 0, begins: [0; MOST], ends: [0; MOST] }
    }

    pub fn sum(&self) -> u64 {
        let places = self.begins.iter().zip(&self.ends);
        places.fold(self.n, |sum, (begin, end)| (sum.rotate_left(1) ^ begin).wrapping_add(*end))
    }
}

/// The ranges of a coverage at the front of vectors that are used again; what
/// stands behind them is of no account.
pub struct Runs {
    pub n: u64,
    pub begins: Vec<u64>,
    pub ends: Vec<u64>,
}

impl Runs {
    pub fn new() -> Runs {
        Runs { n: 0, begins: vec![0; MOST], ends: vec![0; MOST] }
    }

    pub fn sum(&self) -> u64 {
        let runs = self.begins.iter().zip(&self.ends).take(self.n as usize);
        runs.fold(self.n, |sum, (begin, end)| (sum.rotate_left(1) ^ begin).wrapping_add(*end))
    }
}

pub fn sum_of_bytes(bytes: &[u8]) -> u64 {
    let add = |sum: u64, &byte: &u8| sum.rotate_left(5).wrapping_add(u64::from(byte));
    bytes.iter().fold(bytes.len() as u64, add)
}

/// The yielded ranges, sorted.
#[inline(always)]
fn gather(walk: Result<impl Yields, Error>, found: &mut Vec<(u64, u64)>) -> Result<(), Refused> {
    found.clear();
    let mut walk = walk.map_err(|_| Refused::Walk)?;
    while let Some(range) = walk.next_range().map_err(|_| Refused::Walk)? {
        if found.len() == MOST {
            return Err(Refused::TooManyRanges);
        }
        found.push((range.begin, range.end));
    }
    found.sort_unstable();
    Ok(())
}

/// Sorted ranges, those joined that overlap or touch.
fn merge(found: &mut Vec<(u64, u64)>) {
    found.dedup_by(|next, last| {
        let joined = next.0 <= last.1;
        if joined {
            last.1 = last.1.max(next.1);
        }
        joined
    });
}

#[inline(always)]
pub fn coverage_once(
    walk: Result<impl Yields, Error>,
    found: &mut Vec<(u64, u64)>,
) -> Result<Coverage, Refused> {
    gather(walk, found)?;
    merge(found);
    // Filled where it is answered, which saves a copy.
    let mut answer = Ok(Coverage::new());
    if let Ok(made) = &mut answer {
        made.n = found.len() as u64;
        for (place, &(begin, end)) in found.iter().enumerate() {
            made.begins[place] = begin;
            made.ends[place] = end;
        }
    }
    answer
}

#[inline(never)]
pub fn coverage<E: Order>(lists: &Lists<'_, E>, found: &mut Vec<(u64, u64)>, passes: u64) -> u64 {
    let mut pass = 0;
    repeat!(passes, {
        pass += 1;
        // Seen where it stands: a copy of 48 KB would be the benchmark's own.
        let lists = black_box(lists);
        let made = coverage_once(lists.open_ranges(lists.offset), found);
        let made = black_box(&made).as_ref().expect("a coverage");
        if pass == passes { made.sum() } else { made.n }
    })
}

#[inline(always)]
pub fn runs_once(
    walk: Result<impl Yields, Error>,
    found: &mut Vec<(u64, u64)>,
    made: &mut Runs,
) -> Result<(), Refused> {
    gather(walk, found)?;
    merge(found);
    let n = found.len();
    let begins = made.begins.get_mut(..n).ok_or(Refused::NoSpace)?;
    let ends = made.ends.get_mut(..n).ok_or(Refused::NoSpace)?;
    for (place, &(begin, end)) in found.iter().enumerate() {
        begins[place] = begin;
        ends[place] = end;
    }
    made.n = n as u64;
    Ok(())
}

#[inline(never)]
pub fn runs<E: Order>(
    lists: &Lists<'_, E>,
    found: &mut Vec<(u64, u64)>,
    made: &mut Runs,
    passes: u64,
) -> u64 {
    repeat!(passes, {
        let lists = black_box(lists);
        runs_once(lists.open_ranges(lists.offset), found, made).expect("runs");
        black_box(&*made).n
    });
    made.sum()
}

pub fn uleb128_length(value: u64) -> usize {
    (64 - (value | 1).leading_zeros() as usize).div_ceil(7)
}

fn write_uleb128(output: &mut [u8], at: usize, mut value: u64) -> usize {
    let mut at = at;
    while value > 0x7f {
        output[at] = 0x80 | value as u8;
        value >>= 7;
        at += 1;
    }
    output[at] = value as u8;
    at + 1
}

#[inline(always)]
pub fn canonical_once(
    walk: Result<impl Yields, Error>,
    found: &mut Vec<(u64, u64)>,
    output: &mut [u8],
) -> Result<usize, Refused> {
    gather(walk, found)?;
    merge(found);
    let length =
        found.iter().map(|(begin, end)| 9 + uleb128_length(end - begin)).sum::<usize>() + 1;
    let output = output.get_mut(..length).ok_or(Refused::NoSpace)?;
    let mut at = 0;
    for &(begin, end) in found.iter() {
        output[at] = 7;
        output[at + 1..at + 9].copy_from_slice(&begin.to_le_bytes());
        at = write_uleb128(output, at + 9, end - begin);
    }
    output[at] = 0;
    Ok(length)
}

#[inline(never)]
pub fn canonical<E: Order>(
    lists: &Lists<'_, E>,
    found: &mut Vec<(u64, u64)>,
    output: &mut [u8],
    passes: u64,
) -> u64 {
    let written = repeat!(passes, {
        let lists = black_box(lists);
        let walk = lists.open_ranges(lists.offset);
        let written = canonical_once(walk, found, output).expect("a canonical list");
        black_box(&*output);
        written as u64
    });
    sum_of_bytes(&output[..written as usize])
}

/// Ranges that make a lawful sheet.
fn lawful(ranges: impl Iterator<Item = (u64, u64)>) -> bool {
    let mut least = 0;
    for (begin, end) in ranges {
        if begin < least || end <= begin || begin >= u64::MAX - 1 {
            return false;
        }
        least = end + u64::from(end < u64::MAX);
    }
    true
}

#[inline(always)]
fn sheet_once(made: &Coverage, output: &mut [u8]) -> Result<usize, Refused> {
    let n = made.n as usize;
    let (Some(begins), Some(ends)) = (made.begins.get(..n), made.ends.get(..n)) else {
        return Err(Refused::BadSheet);
    };
    if !lawful(begins.iter().copied().zip(ends.iter().copied())) {
        return Err(Refused::BadSheet);
    }
    let output = output.get_mut(..4 + 16 * n).ok_or(Refused::NoSpace)?;
    let (head, words) = output.split_at_mut(4);
    head.copy_from_slice(&[n as u8, (n >> 8) as u8, 8, 0]);
    for (place, word) in words.chunks_exact_mut(8).zip(begins.iter().chain(ends)) {
        place.copy_from_slice(&word.to_le_bytes());
    }
    Ok(4 + 16 * n)
}

#[inline(never)]
pub fn sheet(made: &Coverage, output: &mut [u8], passes: u64) -> u64 {
    let written = repeat!(passes, {
        let written = sheet_once(black_box(made), output).expect("a sheet");
        black_box(&*output);
        written as u64
    });
    sum_of_bytes(&output[..written as usize])
}

/// The numbers of eight bytes each.
fn numbers(bytes: &[u8]) -> impl Iterator<Item = u64> + '_ {
    bytes.chunks_exact(8).map(|word| u64::from_le_bytes(word.try_into().expect("eight bytes")))
}

#[inline(always)]
fn from_sheet_once(sheet: &[u8], made: &mut Coverage) -> Result<(), Refused> {
    let &[low, high, 8, 0, ref words @ ..] = sheet else { return Err(Refused::BadSheet) };
    let n = usize::from(u16::from_le_bytes([low, high]));
    if n > MOST || words.len() != 16 * n {
        return Err(Refused::BadSheet);
    }
    let (begins, ends) = words.split_at(8 * n);
    if !lawful(numbers(begins).zip(numbers(ends))) {
        return Err(Refused::BadSheet);
    }
    made.n = n as u64;
    for (bytes, places) in [(begins, &mut made.begins), (ends, &mut made.ends)] {
        places[n..].fill(0);
        places.iter_mut().zip(numbers(bytes)).for_each(|(place, number)| *place = number);
    }
    Ok(())
}

#[inline(never)]
pub fn from_sheet(sheet: &[u8], made: &mut Coverage, passes: u64) -> u64 {
    repeat!(passes, {
        from_sheet_once(black_box(sheet), made).expect("a coverage");
        black_box(&*made).n
    });
    made.sum()
}

/// Whether a table of kind numbers may be loaded.
#[inline(always)]
fn load_once(table: &[u8]) -> bool {
    let mut seen = 0u8;
    for &number in table {
        match number {
            0..8 if seen >> number & 1 == 0 => seen |= 1 << number,
            255 => {}
            _ => return false,
        }
    }
    table.len() == 256 && seen & 1 == 1
}

#[inline(never)]
pub fn load(table: &[u8], passes: u64) -> u64 {
    repeat!(passes, u64::from(load_once(black_box(table))))
}
