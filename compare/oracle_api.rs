//! gimli's readers as plain calls: byte slices and numbers in, comparable
//! values out. Every call goes to gimli's own code over
//! `EndianSlice<RunTimeEndian>`; nothing is computed here but names, numbers of
//! refusals, places counted from a section's start, how many raw entries gimli's
//! raw walk reads, which of a walk's entries a lookup gives, and which entries
//! break the profile.
//!
//! Walks with an address size other than 1, 2, 4, 8 are outside the
//! comparison, since gimli refuses each address there: the scope lists them as a
//! difference.

use core::fmt::Debug;

use crate::common::{
    DebugAddrBase, DebugAddrIndex, DebugLocListsBase, DebugLocListsIndex, DebugRngListsBase,
    DebugRngListsIndex, DwarfFileType, Encoding, Format, LocationListsOffset, RangeListsOffset,
};
use crate::endianity::RunTimeEndian;
use crate::leb128;
use crate::read::lists::ListsHeader;
use crate::read::{
    AddrEntryIter, AddrHeader, AddrHeaderIter, DebugAddr, DebugLoc, DebugLocLists, DebugRanges,
    DebugRngLists, EndianSlice, Error, Expression, LocListIter, LocationListEntry, LocationLists,
    Range, RangeLists, RawLocListEntry, RawLocListIter, RawRngListEntry, RawRngListIter, Reader,
    ReaderAddress, RngListIter,
};

type Slice<'a> = EndianSlice<'a, RunTimeEndian>;

/// A refusal by the scope's number, with its value, 0 where it has none.
#[derive(Debug, Clone, Copy, PartialEq, Eq, Hash)]
pub struct Refusal {
    pub number: u8,
    pub value: u64,
}

/// The refusal where gimli meets address size 3, which the scope reads.
pub const THREE: Refusal = Refusal { number: 6, value: 3 };

/// What a reading call answers.
#[derive(Debug, Clone, Copy, PartialEq, Eq, Hash)]
pub enum Answer<T> {
    Entry(T),
    End,
    Refused(Refusal),
}

impl<T> Answer<T> {
    pub fn map<U>(self, entry: impl FnOnce(T) -> U) -> Answer<U> {
        match self {
            Answer::Entry(got) => Answer::Entry(entry(got)),
            Answer::End => Answer::End,
            Answer::Refused(refusal) => Answer::Refused(refusal),
        }
    }
}

/// What `convert_raw` answers; `Nothing` for a base and for a skipped range.
#[derive(Debug, Clone, Copy, PartialEq, Eq, Hash)]
pub enum Converted {
    Entry(Yielded),
    Nothing,
    Refused(Refusal),
}

/// What `get_offset` answers. `SumTooLarge`: base plus the offset read is not
/// below 2^64, where the scope lists a difference.
#[derive(Debug, Clone, Copy, PartialEq, Eq, Hash)]
pub enum OffsetAnswer {
    Offset(u64),
    SumTooLarge,
    Refused(Refusal),
}

/// A part of a section: offset from the section's start, and length.
#[derive(Debug, Clone, Copy, PartialEq, Eq, Hash)]
pub struct Place {
    pub offset: u64,
    pub length: u64,
}

/// A yielded range, with its expression in a location list.
#[derive(Debug, Clone, Copy, PartialEq, Eq, Hash)]
pub struct Yielded {
    pub begin: u64,
    pub end: u64,
    pub expression: Option<Place>,
}

impl Yielded {
    pub fn holds(&self, address: u64) -> bool {
        self.begin <= address && address < self.end
    }
}

/// The forms of a raw entry.
#[derive(Debug, Clone, Copy, PartialEq, Eq, Hash)]
pub enum Form {
    /// A bare pair that is no base selection.
    BarePair,
    /// `first` is the base.
    Base,
    /// `first` is the base's index.
    BaseIndex,
    /// Two indexes.
    StartEndIndex,
    /// An index and a length.
    StartLengthIndex,
    OffsetPair,
    /// No numbers.
    Default,
    StartEnd,
    StartLength,
}

/// A raw entry: its form, its numbers in the order of the bytes (0 where it
/// has fewer than two), and its expression.
#[derive(Debug, Clone, Copy, PartialEq, Eq, Hash)]
pub struct Raw {
    pub form: Form,
    pub first: u64,
    pub second: u64,
    pub expression: Option<Place>,
}

/// Which list is walked. Split range lists are read as plain ones.
#[derive(Debug, Clone, Copy, PartialEq, Eq, Hash)]
pub enum Kind {
    Ranges,
    Locations,
    SplitLocations,
}

/// A list and all that its reading depends on. gimli chooses the section by
/// version: `old` is `.debug_ranges` or `.debug_loc`, `new` is
/// `.debug_rnglists` or `.debug_loclists`.
#[derive(Debug, Clone, Copy)]
pub struct List<'a> {
    pub kind: Kind,
    pub old: &'a [u8],
    pub new: &'a [u8],
    pub offset: u64,
    pub version: u16,
    pub address_size: u8,
    pub dwarf64: bool,
    pub big_endian: bool,
    pub base_address: u64,
    pub table: &'a [u8],
    pub table_base: u64,
}

/// Where a walk stands: the place of its next byte (the section's length when
/// emptied), its base address, and how many raw entries were read since it was
/// opened, the end mark among them.
#[derive(Debug, Clone, Copy, PartialEq, Eq, Hash)]
pub struct State {
    pub place: u64,
    pub base_address: u64,
    pub entries: u64,
}

/// A header of a lists section. `rest` is what the header's length leaves
/// behind it.
#[derive(Debug, Clone, Copy, PartialEq, Eq, Hash)]
pub struct Lists {
    pub dwarf64: bool,
    pub version: u16,
    pub address_size: u8,
    pub entry_count: u32,
    pub size: u8,
    pub rest: Place,
}

/// A header of an address table. `offset` and `length` are gimli's: the
/// header's offset and the length field; `entries` is the entries' own place.
#[derive(Debug, Clone, Copy, PartialEq, Eq, Hash)]
pub struct Table {
    pub offset: u64,
    pub length: u64,
    pub dwarf64: bool,
    pub version: u16,
    pub address_size: u8,
    pub entries: Place,
}

fn order(big_endian: bool) -> RunTimeEndian {
    if big_endian { RunTimeEndian::Big } else { RunTimeEndian::Little }
}

fn lend(bytes: &[u8], big_endian: bool) -> Slice<'_> {
    EndianSlice::new(bytes, order(big_endian))
}

fn format(dwarf64: bool) -> Format {
    if dwarf64 { Format::Dwarf64 } else { Format::Dwarf32 }
}

fn encoding(version: u16, address_size: u8, dwarf64: bool) -> Encoding {
    Encoding { address_size, format: format(dwarf64), version }
}

fn refusal(error: Error) -> Refusal {
    let (number, value) = match error {
        Error::UnexpectedEof(_) => (1, 0),
        Error::BadUnsignedLeb128 => (2, 0),
        Error::UnknownRangeListsEntry(kind) => (3, u64::from(kind.0)),
        Error::UnknownLocListsEntry(kind) => (4, u64::from(kind.0)),
        Error::UnknownVersion(version) => (5, version),
        Error::UnsupportedAddressSize(size) => (6, u64::from(size)),
        Error::UnsupportedSegmentSize(size) => (7, u64::from(size)),
        Error::UnknownReservedLength(length) => (8, u64::from(length)),
        Error::UnsupportedOffset => (9, 0),
        Error::BadUtf8
        | Error::BadSignedLeb128
        | Error::AddressOverflow
        | Error::UnsupportedOffsetSize(_) => unreachable!("no such reading: {error:?}"),
    };
    Refusal { number, value }
}

fn answer<T, U>(result: Result<Option<T>, Error>, entry: impl FnOnce(T) -> U) -> Answer<U> {
    match result {
        Ok(Some(got)) => Answer::Entry(entry(got)),
        Ok(None) => Answer::End,
        Err(error) => Answer::Refused(refusal(error)),
    }
}

/// The place of a part that was taken out of the section.
fn place_of(section: &[u8], part: &[u8]) -> Place {
    let offset = part.as_ptr() as usize - section.as_ptr() as usize;
    assert!(offset + part.len() <= section.len());
    Place { offset: offset as u64, length: part.len() as u64 }
}

/// How many bytes the first reader in `value` still has. gimli keeps its
/// readers private; their debug text shows up to eight bytes, and the number of
/// all when there are more.
fn bytes_left(text: &str) -> usize {
    let start = text.find("EndianSlice(").expect("a reader");
    let open = start + text[start..].find('[').expect("its bytes");
    let close = open + text[open..].find(']').expect("their end");
    let bytes = &text[open + 1..close];
    match bytes.find("...; ") {
        Some(at) => bytes[at + 5..].parse().expect("a number of bytes"),
        None => bytes.matches("0x").count(),
    }
}

fn number_after(text: &str, name: &str) -> u64 {
    let start = text.find(name).expect("the field") + name.len();
    let digits: String = text[start..].chars().take_while(char::is_ascii_digit).collect();
    digits.parse().expect("a number")
}

/// A walk's place and its base address.
fn stands(section: &[u8], walk: &impl Debug) -> (u64, u64) {
    let text = format!("{walk:?}");
    let place = section.len() - bytes_left(&text);
    (place as u64, number_after(&text, "base_address: "))
}

fn raw(form: Form, first: u64, second: u64) -> Raw {
    Raw { form, first, second, expression: None }
}

fn raw_range(entry: RawRngListEntry<usize>) -> Raw {
    use RawRngListEntry as E;
    match entry {
        E::AddressOrOffsetPair { begin, end } => raw(Form::BarePair, begin, end),
        E::BaseAddress { addr } => raw(Form::Base, addr, 0),
        E::BaseAddressx { addr } => raw(Form::BaseIndex, addr.0 as u64, 0),
        E::StartxEndx { begin, end } => raw(Form::StartEndIndex, begin.0 as u64, end.0 as u64),
        E::StartxLength { begin, length } => raw(Form::StartLengthIndex, begin.0 as u64, length),
        E::OffsetPair { begin, end } => raw(Form::OffsetPair, begin, end),
        E::StartEnd { begin, end } => raw(Form::StartEnd, begin, end),
        E::StartLength { begin, length } => raw(Form::StartLength, begin, length),
    }
}

fn gimli_range(entry: Raw) -> RawRngListEntry<usize> {
    use RawRngListEntry as E;
    let index = |value: u64| DebugAddrIndex(value as usize);
    let Raw { form, first, second, .. } = entry;
    match form {
        Form::BarePair => E::AddressOrOffsetPair { begin: first, end: second },
        Form::Base => E::BaseAddress { addr: first },
        Form::BaseIndex => E::BaseAddressx { addr: index(first) },
        Form::StartEndIndex => E::StartxEndx { begin: index(first), end: index(second) },
        Form::StartLengthIndex => E::StartxLength { begin: index(first), length: second },
        Form::OffsetPair => E::OffsetPair { begin: first, end: second },
        Form::Default => panic!("a range list has no default location"),
        Form::StartEnd => E::StartEnd { begin: first, end: second },
        Form::StartLength => E::StartLength { begin: first, length: second },
    }
}

fn raw_location(section: &[u8], entry: RawLocListEntry<Slice<'_>>) -> Raw {
    use RawLocListEntry as E;
    let full = |form, first, second, data: Expression<Slice<'_>>| Raw {
        form,
        first,
        second,
        expression: Some(place_of(section, data.0.slice())),
    };
    match entry {
        E::AddressOrOffsetPair { begin, end, data } => full(Form::BarePair, begin, end, data),
        E::BaseAddress { addr } => raw(Form::Base, addr, 0),
        E::BaseAddressx { addr } => raw(Form::BaseIndex, addr.0 as u64, 0),
        E::StartxEndx { begin, end, data } => {
            full(Form::StartEndIndex, begin.0 as u64, end.0 as u64, data)
        }
        E::StartxLength { begin, length, data } => {
            full(Form::StartLengthIndex, begin.0 as u64, length, data)
        }
        E::OffsetPair { begin, end, data } => full(Form::OffsetPair, begin, end, data),
        E::DefaultLocation { data } => full(Form::Default, 0, 0, data),
        E::StartEnd { begin, end, data } => full(Form::StartEnd, begin, end, data),
        E::StartLength { begin, length, data } => full(Form::StartLength, begin, length, data),
    }
}

/// A location entry made by hand. Its expression must lie inside the section.
fn gimli_location<'a>(
    section: &'a [u8],
    big_endian: bool,
    entry: Raw,
) -> RawLocListEntry<Slice<'a>> {
    use RawLocListEntry as E;
    let index = |value: u64| DebugAddrIndex(value as usize);
    let data = || {
        let place = entry.expression.expect("an expression");
        let bytes = &section[place.offset as usize..][..place.length as usize];
        Expression(lend(bytes, big_endian))
    };
    let Raw { form, first, second, .. } = entry;
    match form {
        Form::BarePair => E::AddressOrOffsetPair { begin: first, end: second, data: data() },
        Form::Base => E::BaseAddress { addr: first },
        Form::BaseIndex => E::BaseAddressx { addr: index(first) },
        Form::StartEndIndex => {
            E::StartxEndx { begin: index(first), end: index(second), data: data() }
        }
        Form::StartLengthIndex => {
            E::StartxLength { begin: index(first), length: second, data: data() }
        }
        Form::OffsetPair => E::OffsetPair { begin: first, end: second, data: data() },
        Form::Default => E::DefaultLocation { data: data() },
        Form::StartEnd => E::StartEnd { begin: first, end: second, data: data() },
        Form::StartLength => E::StartLength { begin: first, length: second, data: data() },
    }
}

fn yielded_range(range: Range) -> Yielded {
    Yielded { begin: range.begin, end: range.end, expression: None }
}

fn yielded_location(section: &[u8], entry: LocationListEntry<Slice<'_>>) -> Yielded {
    let expression = Some(place_of(section, entry.data.0.slice()));
    Yielded { begin: entry.range.begin, end: entry.range.end, expression }
}

impl<'a> List<'a> {
    /// The section that the version chooses; used only to count places from
    /// its start.
    pub fn section(&self) -> &'a [u8] {
        if self.version <= 4 { self.old } else { self.new }
    }

    fn encoding(&self) -> Encoding {
        encoding(self.version, self.address_size, self.dwarf64)
    }

    fn ranges(&self) -> RangeLists<Slice<'a>> {
        let order = order(self.big_endian);
        RangeLists::new(DebugRanges::new(self.old, order), DebugRngLists::new(self.new, order))
    }

    fn locations(&self) -> LocationLists<Slice<'a>> {
        let order = order(self.big_endian);
        LocationLists::new(DebugLoc::new(self.old, order), DebugLocLists::new(self.new, order))
    }
}

enum Walking<'a> {
    Ranges(RngListIter<Slice<'a>>),
    Locations(LocListIter<Slice<'a>>),
}

/// `RngListIter` or `LocListIter`, and beside it the raw walk that its entries
/// are counted with: its place, and how many it has read.
pub struct Walk<'a> {
    list: List<'a>,
    section: &'a [u8],
    walking: Walking<'a>,
    raw: RawWalk<'a>,
    counted_to: u64,
    entries: u64,
}

impl<'a> Walk<'a> {
    /// `ranges`, `locations` or `locations_dwo`.
    pub fn open(list: &List<'a>) -> Result<Walk<'a>, Refusal> {
        let table = DebugAddr::from(lend(list.table, list.big_endian));
        let table_base = DebugAddrBase(list.table_base as usize);
        let offset = list.offset as usize;
        let (encoding, base) = (list.encoding(), list.base_address);
        let walking = match list.kind {
            Kind::Ranges => list
                .ranges()
                .ranges(RangeListsOffset(offset), encoding, base, &table, table_base)
                .map(Walking::Ranges),
            Kind::Locations => list
                .locations()
                .locations(LocationListsOffset(offset), encoding, base, &table, table_base)
                .map(Walking::Locations),
            Kind::SplitLocations => list
                .locations()
                .locations_dwo(LocationListsOffset(offset), encoding, base, &table, table_base)
                .map(Walking::Locations),
        };
        Ok(Walk {
            list: *list,
            section: list.section(),
            walking: walking.map_err(refusal)?,
            raw: RawWalk::open(list)?,
            counted_to: list.offset,
            entries: 0,
        })
    }

    pub fn next(&mut self) -> Answer<Yielded> {
        match &mut self.walking {
            Walking::Ranges(walk) => answer(walk.next(), yielded_range),
            Walking::Locations(walk) => {
                answer(walk.next(), |entry| yielded_location(self.section, entry))
            }
        }
    }

    pub fn next_raw(&mut self) -> Answer<Raw> {
        match &mut self.walking {
            Walking::Ranges(walk) => answer(walk.next_raw(), raw_range),
            Walking::Locations(walk) => {
                answer(walk.next_raw(), |entry| raw_location(self.section, entry))
            }
        }
    }

    /// Also for an entry made by hand.
    pub fn convert_raw(&mut self, entry: Raw) -> Converted {
        let converted = match &mut self.walking {
            Walking::Ranges(walk) => answer(walk.convert_raw(gimli_range(entry)), yielded_range),
            Walking::Locations(walk) => {
                let entry = gimli_location(self.section, self.list.big_endian, entry);
                answer(walk.convert_raw(entry), |entry| yielded_location(self.section, entry))
            }
        };
        match converted {
            Answer::Entry(entry) => Converted::Entry(entry),
            Answer::End => Converted::Nothing,
            Answer::Refused(refusal) => Converted::Refused(refusal),
        }
    }

    /// The next raw entry's form, and what the entry comes to.
    pub fn step(&mut self) -> Answer<(Form, Converted)> {
        self.next_raw().map(|entry| (entry.form, self.convert_raw(entry)))
    }

    /// `next` in the profile. gimli has none: 15 for its raw entry where that took more
    /// bytes than it needs, then what its conversion refuses, then 16 and 17.
    pub fn next_in_profile(&mut self) -> Answer<Yielded> {
        let bound = min_tombstone(self.list.address_size);
        loop {
            let before = self.state();
            let entry = match self.next_raw() {
                Answer::Entry(entry) => entry,
                Answer::End => return Answer::End,
                Answer::Refused(refusal) => return Answer::Refused(refusal),
            };
            let taken = self.state().place - before.place;
            if taken > shortest(&self.list, entry) {
                return self.broken(15);
            }
            let converted = self.convert_raw(entry);
            if let Converted::Refused(refusal) = converted {
                return Answer::Refused(refusal);
            }
            if let Some((begin, end)) = bounds(&self.list, before.base_address, entry) {
                let based = matches!(entry.form, Form::BarePair | Form::OffsetPair);
                if based && before.base_address >= bound || begin >= bound {
                    return self.broken(16);
                }
                if begin > end {
                    return self.broken(17);
                }
            }
            if let Converted::Entry(entry) = converted {
                return Answer::Entry(entry);
            }
        }
    }

    /// A refusal of the profile, which empties the walk: one at the section's end that
    /// has read as many entries.
    fn broken<T>(&mut self, number: u8) -> Answer<T> {
        let State { base_address, entries, .. } = self.state();
        let list = List { offset: self.section.len() as u64, base_address, ..self.list };
        let emptied = Walk::open(&list).expect("a place of the section");
        *self = Walk { entries, ..emptied };
        Answer::Refused(Refusal { number, value: 0 })
    }

    /// Where the walk stands. Slower than a reading call. gimli has no count, so
    /// its raw walk of the list is led up to the place. At an end mark and at the
    /// section's end that walk answers the same; but it is called only where
    /// bytes are left, so that its end is a mark.
    pub fn state(&mut self) -> State {
        let (place, base_address) = match &self.walking {
            Walking::Ranges(walk) => stands(self.section, walk),
            Walking::Locations(walk) => stands(self.section, walk),
        };
        while self.counted_to < place {
            let read = !matches!(self.raw.next(), Answer::Refused(_));
            self.entries += u64::from(read);
            self.counted_to = self.raw.place();
        }
        assert_eq!(self.counted_to, place);
        State { place, base_address, entries: self.entries }
    }
}

/// How many bytes an entry with kind needs; of a bare pair any number will do, for it
/// has no LEB128 number.
fn shortest(list: &List<'_>, entry: Raw) -> u64 {
    let (old, located) = (list.version <= 4, list.kind != Kind::Ranges);
    if old && list.kind != Kind::SplitLocations {
        return u64::MAX;
    }
    let (address, first, second) =
        (list.address_size.into(), leb128_length(entry.first), leb128_length(entry.second));
    let numbers = match entry.form {
        Form::BaseIndex => first,
        Form::StartLengthIndex if old && located => first + 4,
        Form::StartEndIndex | Form::StartLengthIndex | Form::OffsetPair => first + second,
        Form::Base => address,
        Form::StartEnd => 2 * address,
        Form::StartLength => address + second,
        Form::Default => 0,
        Form::BarePair => unreachable!("an entry with a kind"),
    };
    let expression = entry
        .expression
        .map_or(0, |Place { length, .. }| length + if old { 2 } else { leb128_length(length) });
    1 + numbers + expression
}

fn leb128_length(value: u64) -> u64 {
    u64::from(64 - (value | 1).leading_zeros()).div_ceil(7)
}

/// Begin and end of an entry whose lookups succeed, skipped or not; none of a base.
fn bounds(list: &List<'_>, base: u64, entry: Raw) -> Option<(u64, u64)> {
    let size = list.address_size;
    let look = |index| {
        get_address(list.table, list.big_endian, size, list.table_base, index).expect("an address")
    };
    let sum = |address, length| wrapping_add_sized(address, length, size);
    let Raw { form, first, second, .. } = entry;
    Some(match form {
        Form::Base | Form::BaseIndex => return None,
        Form::BarePair | Form::OffsetPair => (sum(base, first), sum(base, second)),
        Form::StartEndIndex => (look(first), look(second)),
        Form::StartLengthIndex => (look(first), sum(look(first), second)),
        Form::Default => (0, u64::MAX),
        Form::StartEnd => (first, second),
        Form::StartLength => (first, sum(first, second)),
    })
}

enum RawWalking<'a> {
    Ranges(RawRngListIter<Slice<'a>>),
    Locations(RawLocListIter<Slice<'a>>),
}

/// `RawRngListIter` or `RawLocListIter`; base address and table play no part.
pub struct RawWalk<'a> {
    section: &'a [u8],
    walking: RawWalking<'a>,
}

impl<'a> RawWalk<'a> {
    /// `raw_ranges`, `raw_locations` or `raw_locations_dwo`.
    pub fn open(list: &List<'a>) -> Result<RawWalk<'a>, Refusal> {
        let offset = list.offset as usize;
        let encoding = list.encoding();
        let walking = match list.kind {
            Kind::Ranges => {
                list.ranges().raw_ranges(RangeListsOffset(offset), encoding).map(RawWalking::Ranges)
            }
            Kind::Locations => list
                .locations()
                .raw_locations(LocationListsOffset(offset), encoding)
                .map(RawWalking::Locations),
            Kind::SplitLocations => list
                .locations()
                .raw_locations_dwo(LocationListsOffset(offset), encoding)
                .map(RawWalking::Locations),
        };
        Ok(RawWalk { section: list.section(), walking: walking.map_err(refusal)? })
    }

    pub fn next(&mut self) -> Answer<Raw> {
        match &mut self.walking {
            RawWalking::Ranges(walk) => answer(walk.next(), raw_range),
            RawWalking::Locations(walk) => {
                answer(walk.next(), |entry| raw_location(self.section, entry))
            }
        }
    }

    /// The place of the next byte, the section's length when emptied.
    pub fn place(&self) -> u64 {
        let text = match &self.walking {
            RawWalking::Ranges(walk) => format!("{walk:?}"),
            RawWalking::Locations(walk) => format!("{walk:?}"),
        };
        (self.section.len() - bytes_left(&text)) as u64
    }
}

/// Whether gimli's raw walk of a list ends at an end mark. At the section's end
/// it answers the same; but there it refuses a byte ff that is put behind the
/// list, for that is neither a kind nor a pair of addresses.
fn marked(list: &List<'_>) -> bool {
    let longer = [list.section(), &[0xff]].concat();
    ends(list) && ends(&List { old: &longer, new: &longer, ..*list })
}

/// Whether gimli's raw walk of a list refuses nothing.
fn ends(list: &List<'_>) -> bool {
    let Ok(mut walk) = RawWalk::open(list) else { return false };
    loop {
        match walk.next() {
            Answer::Entry(_) => {}
            Answer::End => return true,
            Answer::Refused(_) => return false,
        }
    }
}

/// Every answer of `next` from opening up to the first end, each with how many
/// raw entries were read by then: those that `next_raw` and `convert_raw` of
/// another walk take to come there. A refusal at opening is the only answer.
pub fn walk_counted(list: &List<'_>) -> Vec<(Answer<Yielded>, u64)> {
    let (mut walk, mut by_entry) = match (Walk::open(list), Walk::open(list)) {
        (Ok(walk), Ok(by_entry)) => (walk, by_entry),
        (Err(refusal), _) | (_, Err(refusal)) => return vec![(Answer::Refused(refusal), 0)],
    };
    let mut entries = 0;
    let mut answers = Vec::new();
    while !matches!(answers.last(), Some((Answer::End, _))) {
        let answer = walk.next();
        loop {
            match by_entry.next_raw() {
                Answer::Entry(entry) => {
                    entries += 1;
                    if by_entry.convert_raw(entry) != Converted::Nothing {
                        break;
                    }
                }
                Answer::End => {
                    entries += u64::from(marked(list));
                    break;
                }
                Answer::Refused(_) => break,
            }
        }
        answers.push((answer, entries));
    }
    answers
}

/// The same for `next_raw`.
pub fn walk_raw_counted(list: &List<'_>) -> Vec<(Answer<Raw>, u64)> {
    let mut entries = 0;
    let counted = walk_raw(list, usize::MAX).into_iter().map(|answer| {
        entries += match answer {
            Answer::Entry(_) => 1,
            Answer::End => u64::from(marked(list)),
            Answer::Refused(_) => 0,
        };
        (answer, entries)
    });
    counted.collect()
}

/// Every answer of `next` from opening up to the first end, at most `most`.
/// A refusal at opening is the only answer.
pub fn walk(list: &List<'_>, most: usize) -> Vec<Answer<Yielded>> {
    match Walk::open(list) {
        Ok(mut walk) => trace(most, || walk.next()),
        Err(refusal) => vec![Answer::Refused(refusal)],
    }
}

/// The same for `next_raw`.
pub fn walk_raw(list: &List<'_>, most: usize) -> Vec<Answer<Raw>> {
    match Walk::open(list) {
        Ok(mut walk) => trace(most, || walk.next_raw()),
        Err(refusal) => vec![Answer::Refused(refusal)],
    }
}

/// The scope's lookup, by gimli's walk: the first entry that holds the address and
/// isn't a default location, or the first refusal met before it; at the end the
/// first default location, where it holds the address. gimli yields a default
/// location as a range like any other: the raw entry tells it from one with the
/// same bounds.
pub fn lookup(list: &List<'_>, address: u64) -> Answer<Yielded> {
    Seen::new(list, address).answer
}

/// Single lookups, and how many raw entries the longest of them reads.
pub fn lookups(list: &List<'_>, addresses: &[u64]) -> (Vec<Answer<Yielded>>, u64) {
    let (mut answers, mut longest, mark) = (Vec::new(), 0, u64::from(marked(list)));
    for &address in addresses {
        let seen = Seen::new(list, address);
        answers.push(seen.answer);
        longest = longest.max(seen.entries + if seen.ended { mark } else { 0 });
    }
    (answers, longest)
}

/// A lookup's answer, how many raw entries gimli's raw walk gives it, and whether it
/// comes to the list's end.
struct Seen {
    answer: Answer<Yielded>,
    entries: u64,
    ended: bool,
}

impl Seen {
    fn new(list: &List<'_>, address: u64) -> Seen {
        let mut walk = match Walk::open(list) {
            Ok(walk) => walk,
            Err(refusal) => {
                return Seen { answer: Answer::Refused(refusal), entries: 0, ended: false };
            }
        };
        let (mut default, mut entries) = (Answer::End, 0);
        loop {
            let step = walk.step();
            entries += u64::from(matches!(step, Answer::Entry(_)));
            let answer = match step {
                Answer::Entry((form, Converted::Entry(entry))) if entry.holds(address) => {
                    let found = Answer::Entry(entry);
                    if form == Form::Default {
                        default = if default == Answer::End { found } else { default };
                        continue;
                    }
                    found
                }
                Answer::Entry((_, Converted::Refused(refusal))) | Answer::Refused(refusal) => {
                    Answer::Refused(refusal)
                }
                Answer::Entry(_) => continue,
                Answer::End => default,
            };
            return Seen { answer, entries, ended: step == Answer::End };
        }
    }
}

/// Every answer of a call up to the first end, at most `most`.
pub fn trace<T: PartialEq>(most: usize, mut call: impl FnMut() -> Answer<T>) -> Vec<Answer<T>> {
    let mut answers = Vec::new();
    while answers.len() < most && answers.last() != Some(&Answer::End) {
        answers.push(call());
    }
    answers
}

/// `DebugAddr::get_address`.
pub fn get_address(
    table: &[u8],
    big_endian: bool,
    address_size: u8,
    base: u64,
    index: u64,
) -> Result<u64, Refusal> {
    DebugAddr::from(lend(table, big_endian))
        .get_address(address_size, DebugAddrBase(base as usize), DebugAddrIndex(index as usize))
        .map_err(refusal)
}

/// `AddrHeaderIter`.
pub struct Tables<'a> {
    section: &'a [u8],
    headers: AddrHeaderIter<Slice<'a>>,
}

/// `AddrEntryIter`.
pub struct Entries<'a> {
    entries: AddrEntryIter<Slice<'a>>,
}

impl<'a> Tables<'a> {
    pub fn open(section: &'a [u8], big_endian: bool) -> Tables<'a> {
        Tables { section, headers: DebugAddr::from(lend(section, big_endian)).headers() }
    }

    pub fn next(&mut self) -> Answer<(Table, Entries<'a>)> {
        answer(self.headers.next(), |header| {
            (table_of(&header), Entries { entries: header.entries() })
        })
    }

    /// The place of the next header, the section's length when emptied.
    pub fn place(&self) -> u64 {
        (self.section.len() - bytes_left(&format!("{:?}", self.headers))) as u64
    }
}

fn table_of(header: &AddrHeader<Slice<'_>>) -> Table {
    let encoding = header.encoding();
    let (offset, length) = (header.offset().0 as u64, header.length() as u64);
    // The entries are what the header leaves of the table, up to its end.
    let left = bytes_left(&format!("{:?}", header.entries())) as u64;
    let end = offset + u64::from(encoding.format.initial_length_size()) + length;
    Table {
        offset,
        length,
        dwarf64: encoding.format == Format::Dwarf64,
        version: encoding.version,
        address_size: encoding.address_size,
        entries: Place { offset: end - left, length: left },
    }
}

impl Entries<'_> {
    pub fn next(&mut self) -> Answer<u64> {
        answer(self.entries.next(), |address| address)
    }

    /// How many bytes are left, 0 when emptied.
    pub fn left(&self) -> u64 {
        bytes_left(&format!("{:?}", self.entries)) as u64
    }
}

/// `ListsHeader::parse` at the section's start.
pub fn lists_header(section: &[u8], big_endian: bool) -> Result<Lists, Refusal> {
    let mut input = lend(section, big_endian);
    let header = ListsHeader::parse(&mut input).map_err(refusal)?;
    Ok(Lists {
        dwarf64: header.encoding.format == Format::Dwarf64,
        version: header.encoding.version,
        address_size: header.encoding.address_size,
        entry_count: header.offset_entry_count,
        size: header.size(),
        rest: place_of(section, input.slice()),
    })
}

/// `get_offset` of both lists; `section` is `.debug_rnglists` or
/// `.debug_loclists`.
pub fn get_offset(
    kind: Kind,
    section: &[u8],
    big_endian: bool,
    dwarf64: bool,
    base: u64,
    index: u64,
) -> OffsetAnswer {
    let order = order(big_endian);
    let (at, i) = (base as usize, index as usize);
    // Neither version nor address size is looked at.
    let encoding = encoding(5, 8, dwarf64);
    let got = match kind {
        Kind::Ranges => {
            RangeLists::new(DebugRanges::new(&[], order), DebugRngLists::new(section, order))
                .get_offset(encoding, DebugRngListsBase(at), DebugRngListsIndex(i))
                .map(|offset| offset.0)
        }
        Kind::Locations | Kind::SplitLocations => {
            LocationLists::new(DebugLoc::new(&[], order), DebugLocLists::new(section, order))
                .get_offset(encoding, DebugLocListsBase(at), DebugLocListsIndex(i))
                .map(|offset| offset.0)
        }
    };
    match got {
        // gimli's sum wraps exactly when it comes out below the base.
        Ok(offset) if offset < at => OffsetAnswer::SumTooLarge,
        Ok(offset) => OffsetAnswer::Offset(offset as u64),
        Err(error) => OffsetAnswer::Refused(refusal(error)),
    }
}

/// `default_for_encoding_and_file` of both lists' bases.
pub fn default_base(kind: Kind, version: u16, dwarf64: bool, split_file: bool) -> u64 {
    let encoding = encoding(version, 8, dwarf64);
    let file = if split_file { DwarfFileType::Dwo } else { DwarfFileType::Main };
    let base: usize = match kind {
        Kind::Ranges => DebugRngListsBase::default_for_encoding_and_file(encoding, file).0,
        Kind::Locations | Kind::SplitLocations => {
            DebugLocListsBase::default_for_encoding_and_file(encoding, file).0
        }
    };
    base as u64
}

/// The value read and the number of bytes it took.
fn taken<T>(
    bytes: &[u8],
    big_endian: bool,
    read: impl FnOnce(&mut Slice<'_>) -> Result<T, Error>,
) -> Result<(T, u64), Refusal> {
    let mut input = lend(bytes, big_endian);
    let value = read(&mut input).map_err(refusal)?;
    Ok((value, (bytes.len() - input.slice().len()) as u64))
}

/// `leb128::read::unsigned`: the number and how many bytes it took.
pub fn uleb128(bytes: &[u8]) -> Result<(u64, u64), Refusal> {
    taken(bytes, false, |input| leb128::read::unsigned(input))
}

/// `read_address`: the address and how many bytes it took.
pub fn read_address(bytes: &[u8], big_endian: bool, size: u8) -> Result<(u64, u64), Refusal> {
    taken(bytes, big_endian, |input| input.read_address(size))
}

/// `read_address_size`: the size and how many bytes it took.
pub fn read_address_size(bytes: &[u8]) -> Result<(u8, u64), Refusal> {
    taken(bytes, false, |input| input.read_address_size())
}

/// `read_u8`, `read_u16`, `read_u32`, `read_u64` by width 1, 2, 4, 8.
pub fn read_number(bytes: &[u8], big_endian: bool, width: u8) -> Result<(u64, u64), Refusal> {
    taken(bytes, big_endian, |input| match width {
        1 => input.read_u8().map(u64::from),
        2 => input.read_u16().map(u64::from),
        4 => input.read_u32().map(u64::from),
        8 => input.read_u64(),
        _ => panic!("no number is {width} bytes wide"),
    })
}

/// `read_offset`: a word of the format and how many bytes it took.
pub fn read_offset(bytes: &[u8], big_endian: bool, dwarf64: bool) -> Result<(u64, u64), Refusal> {
    taken(bytes, big_endian, |input| input.read_offset(format(dwarf64)).map(|word| word as u64))
}

/// `read_initial_length`: the length, whether the format is 64-bit, and how
/// many bytes it took.
pub fn initial_length(bytes: &[u8], big_endian: bool) -> Result<(u64, bool, u64), Refusal> {
    let ((length, format), count) = taken(bytes, big_endian, |input| input.read_initial_length())?;
    Ok((length as u64, format == Format::Dwarf64, count))
}

/// `skip`: what is left.
pub fn skip(bytes: &[u8], count: u64) -> Result<Place, Refusal> {
    let mut input = lend(bytes, false);
    input.skip(count as usize).map_err(refusal)?;
    Ok(place_of(bytes, input.slice()))
}

/// `split`: the first part, and what is left.
pub fn split(bytes: &[u8], count: u64) -> Result<(Place, Place), Refusal> {
    let mut input = lend(bytes, false);
    let first = input.split(count as usize).map_err(refusal)?;
    Ok((place_of(bytes, first.slice()), place_of(bytes, input.slice())))
}

/// `truncate`: what is left.
pub fn truncate(bytes: &[u8], length: u64) -> Result<Place, Refusal> {
    let mut input = lend(bytes, false);
    input.truncate(length as usize).map_err(refusal)?;
    Ok(place_of(bytes, input.slice()))
}

/// `wrapping_add_sized`, for sizes 1 to 8.
pub fn wrapping_add_sized(address: u64, length: u64, size: u8) -> u64 {
    address.wrapping_add_sized(length, size)
}

/// `min_tombstone`, for sizes 1 to 8.
pub fn min_tombstone(size: u8) -> u64 {
    u64::min_tombstone(size)
}

/// `ones_sized`, for sizes 1 to 8.
pub fn ones_sized(size: u8) -> u64 {
    <u64 as ReaderAddress>::ones_sized(size)
}
