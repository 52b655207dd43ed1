//! The calls of the library and what they pass, as in yeltzarun.h. A slice is a pointer and a
//! length.

/// How many ranges a coverage holds at most.
pub const LIMIT: usize = 3000;

/// How many addresses are looked up at most in one reading of a list.
pub const MOST_ADDRESSES: usize = 64;

/// How many bytes a table of kind numbers has, and the byte of a code that has no kind.
pub const KIND_CODES: usize = 256;
pub const NO_KIND: u8 = 255;

/// How many marks a walk has; they are numbered from 0 on.
pub const MARKS: usize = 8;

pub type Ptr = *const u8;
pub type Bounds = [u64; LIMIT];
pub type Marks = [Mark; MARKS];
pub type Found = [Answer<Location>; MOST_ADDRESSES];

/// What a call comes to.
pub const DONE: u32 = 0;
pub const END: u32 = 1;
pub const NOTHING: u32 = 2;
pub const NOT_THERE: u32 = 3;
pub const REFUSED: u32 = 4;

pub const FILE_MAIN: u32 = 0;
pub const FILE_DWO: u32 = 1;

pub const SECTION_BEFORE_5: u32 = 0;

/// The kinds of entries in range lists.
pub mod range_kind {
    pub const ADDRESS_OR_OFFSET_PAIR: u64 = 0;
    pub const BASE_ADDRESSX: u64 = 1;
    pub const STARTX_ENDX: u64 = 2;
    pub const STARTX_LENGTH: u64 = 3;
    pub const OFFSET_PAIR: u64 = 4;
    pub const BASE_ADDRESS: u64 = 5;
    pub const START_END: u64 = 6;
    pub const START_LENGTH: u64 = 7;
}

/// The kinds of entries in location lists.
pub mod location_kind {
    pub const ADDRESS_OR_OFFSET_PAIR: u64 = 0;
    pub const BASE_ADDRESSX: u64 = 1;
    pub const STARTX_ENDX: u64 = 2;
    pub const STARTX_LENGTH: u64 = 3;
    pub const OFFSET_PAIR: u64 = 4;
    pub const DEFAULT_LOCATION: u64 = 5;
    pub const BASE_ADDRESS: u64 = 6;
    pub const START_END: u64 = 7;
    pub const START_LENGTH: u64 = 8;
}

macro_rules! structs {
    ($($(#[$doc:meta])* $name:ident { $($field:ident: $type:ty,)* })*) => {
        $($(#[$doc])*
        #[repr(C)]
        #[derive(Debug, Default, Clone, Copy, PartialEq, Eq)]
        pub struct $name {
            $(pub $field: $type,)*
        })*
    };
}

structs! {
    Encoding { version: u16, address_size: u8, dwarf64: bool, big_endian: u32, }
    Part { offset: u64, length: u64, }
    Walk { at: u64, base_address: u64, entries: u64, split: u64, }
    Mark { is_set: u64, walk: Walk, }
    RangeEntry { kind: u64, first: u64, second: u64, }
    LocationEntry { kind: u64, first: u64, second: u64, expression: Part, }

    /// What answers hold behind the refusal.
    Read { next: u64, number: u64, }
    Leb128 { next: u64, number: u64, length: u64, padded: u64, }
    SplitPart { next: u64, part: Part, }
    UnitLength { next: u64, length: u64, dwarf64: u64, }
    TableHeader { encoding: Encoding, offset: u64, length: u64, entries: Part, }
    ListsHeader { encoding: Encoding, offset_entry_count: u64, header_size: u64, rest: Part, }
    Range { begin: u64, end: u64, }
    Location { begin: u64, end: u64, expression: Part, }
    RawRange { entry: RangeEntry, padded: u64, }
    RawLocation { entry: LocationEntry, padded: u64, }
}

/// An answer. The result is a number, so that one that is not known here does no harm.
#[repr(C)]
#[derive(Debug, Clone, Copy, PartialEq, Eq)]
pub struct Answer<T> {
    pub result: u32,
    pub refusal: u32,
    pub refusal_value: u64,
    pub item: T,
}

/// An answer without an item.
pub type Done = Answer<[u64; 0]>;

macro_rules! pinned {
    ($($type:ty: $size:literal $(, $field:ident $at:literal)*;)*) => {
        $(const _: () = assert!(size_of::<$type>() == $size);
        $(const _: () = assert!(core::mem::offset_of!($type, $field) == $at);)*)*
    };
}

pinned! {
    Encoding: 8, version 0, address_size 2, dwarf64 3, big_endian 4;
    Part: 16, offset 0, length 8;
    Walk: 32, at 0, base_address 8, entries 16, split 24;
    Mark: 40, is_set 0, walk 8;
    Marks: 320;
    RangeEntry: 24, kind 0, first 8, second 16;
    LocationEntry: 40, kind 0, first 8, second 16, expression 24;
    Done: 16, result 0, refusal 4, refusal_value 8, item 16;
    Answer<u64>: 24, item 16;
    Answer<Read>: 32, item 16;
    Answer<Leb128>: 48, item 16;
    Answer<SplitPart>: 40, item 16;
    Answer<UnitLength>: 40, item 16;
    Answer<TableHeader>: 56, item 16;
    Answer<ListsHeader>: 56, item 16;
    Answer<Range>: 32, item 16;
    Answer<Location>: 48, item 16;
    Found: 3072;
    Answer<RawRange>: 48, item 16;
    Answer<RawLocation>: 64, item 16;
    Read: 16, next 0, number 8;
    Leb128: 32, next 0, number 8, length 16, padded 24;
    SplitPart: 24, next 0, part 8;
    UnitLength: 24, next 0, length 8, dwarf64 16;
    TableHeader: 40, encoding 0, offset 8, length 16, entries 24;
    ListsHeader: 40, encoding 0, offset_entry_count 8, header_size 16, rest 24;
    Range: 16, begin 0, end 8;
    Location: 32, begin 0, end 8, expression 16;
    RawRange: 32, entry 0, padded 24;
    RawLocation: 48, entry 0, padded 40;
}

unsafe extern "C" {
    pub safe fn yz_version() -> u32;

    pub fn yz_uleb128(s: Ptr, n: usize, at: usize) -> Answer<Leb128>;
    pub fn yz_read_u8(s: Ptr, n: usize, at: usize) -> Answer<Read>;
    pub fn yz_read_u16(s: Ptr, n: usize, big_endian: bool, at: usize) -> Answer<Read>;
    pub fn yz_read_u32(s: Ptr, n: usize, big_endian: bool, at: usize) -> Answer<Read>;
    pub fn yz_read_u64(s: Ptr, n: usize, big_endian: bool, at: usize) -> Answer<Read>;
    pub fn yz_read_address(s: Ptr, n: usize, encoding: Encoding, at: usize) -> Answer<Read>;
    pub fn yz_read_address_size(s: Ptr, n: usize, at: usize) -> Answer<Read>;
    pub fn yz_read_offset(s: Ptr, n: usize, encoding: Encoding, at: usize) -> Answer<Read>;
    pub fn yz_initial_length(s: Ptr, n: usize, big_endian: bool, at: usize) -> Answer<UnitLength>;
    pub fn yz_skip(s: Ptr, n: usize, at: usize, len: u64) -> Answer<u64>;
    pub fn yz_split(s: Ptr, n: usize, at: usize, len: u64) -> Answer<SplitPart>;
    pub fn yz_truncate(s: Ptr, n: usize, at: usize, len: u64) -> Answer<u64>;

    pub safe fn yz_wrapping_add_sized(address: u64, length: u64, address_size: u8) -> u64;
    pub safe fn yz_min_tombstone(address_size: u8) -> u64;
    pub safe fn yz_ones_sized(address_size: u8) -> u64;

    pub fn yz_get_address(
        t: Ptr, m: usize, table_base: u64, encoding: Encoding, index: u64,
    ) -> Answer<u64>;
    pub fn yz_table_next(t: Ptr, m: usize, big_endian: bool, at: &mut u64) -> Answer<TableHeader>;
    pub fn yz_table_entry_next(
        t: Ptr, m: usize, encoding: Encoding, entries: &mut Part,
    ) -> Answer<u64>;
    pub fn yz_lists_header(s: Ptr, n: usize, big_endian: bool, at: usize) -> Answer<ListsHeader>;
    pub fn yz_range_get_offset(
        s: Ptr, n: usize, lists_base: u64, encoding: Encoding, index: u64,
    ) -> Answer<u64>;
    pub safe fn yz_range_default_base(encoding: Encoding, file_type: u32) -> u64;
    pub fn yz_location_get_offset(
        s: Ptr, n: usize, lists_base: u64, encoding: Encoding, index: u64,
    ) -> Answer<u64>;
    pub safe fn yz_location_default_base(encoding: Encoding, file_type: u32) -> u64;

    pub safe fn yz_section_of(encoding: Encoding) -> u32;
    pub fn yz_range_open(
        s: Ptr, n: usize, encoding: Encoding, offset: u64, base_address: u64, walk: &mut Walk,
    ) -> Done;
    pub fn yz_range_next(
        s: Ptr, n: usize, t: Ptr, m: usize, table_base: u64, encoding: Encoding, walk: &mut Walk,
    ) -> Answer<Range>;
    pub fn yz_range_next_in_profile(
        s: Ptr, n: usize, t: Ptr, m: usize, table_base: u64, encoding: Encoding, walk: &mut Walk,
    ) -> Answer<Range>;
    pub fn yz_range_next_raw(
        s: Ptr, n: usize, encoding: Encoding, walk: &mut Walk,
    ) -> Answer<RawRange>;
    pub fn yz_range_convert_raw(
        t: Ptr, m: usize, table_base: u64, encoding: Encoding, entry: RangeEntry, walk: &mut Walk,
    ) -> Answer<Range>;
    pub fn yz_location_open(
        s: Ptr, n: usize, encoding: Encoding, file_type: u32, offset: u64, base_address: u64,
        walk: &mut Walk,
    ) -> Done;
    pub fn yz_location_next(
        s: Ptr, n: usize, t: Ptr, m: usize, table_base: u64, encoding: Encoding, walk: &mut Walk,
    ) -> Answer<Location>;
    pub fn yz_location_next_in_profile(
        s: Ptr, n: usize, t: Ptr, m: usize, table_base: u64, encoding: Encoding, walk: &mut Walk,
    ) -> Answer<Location>;
    pub fn yz_location_next_raw(
        s: Ptr, n: usize, encoding: Encoding, walk: &mut Walk,
    ) -> Answer<RawLocation>;
    pub fn yz_location_convert_raw(
        t: Ptr, m: usize, table_base: u64, encoding: Encoding, entry: LocationEntry,
        walk: &mut Walk,
    ) -> Answer<Location>;
    pub fn yz_expression(s: Ptr, n: usize, expression: Part) -> Part;

    pub safe fn yz_mark_set(number: u64, walk: &Walk, marks: &mut Marks) -> Done;
    pub safe fn yz_mark_return(number: u64, marks: &Marks, walk: &mut Walk) -> Done;

    pub fn yz_range_lookup(
        s: Ptr, n: usize, t: Ptr, m: usize, table_base: u64, encoding: Encoding, offset: u64,
        base_address: u64, address: u64,
    ) -> Answer<Range>;
    pub fn yz_location_lookup(
        s: Ptr, n: usize, t: Ptr, m: usize, table_base: u64, encoding: Encoding, file_type: u32,
        offset: u64, base_address: u64, address: u64,
    ) -> Answer<Location>;

    pub fn yz_range_lookups(
        s: Ptr, n: usize, t: Ptr, m: usize, table_base: u64, encoding: Encoding, offset: u64,
        base_address: u64, addresses: *const u64, addresses_len: usize, found: &mut Found,
    ) -> Answer<u64>;
    pub fn yz_location_lookups(
        s: Ptr, n: usize, t: Ptr, m: usize, table_base: u64, encoding: Encoding, file_type: u32,
        offset: u64, base_address: u64, addresses: *const u64, addresses_len: usize,
        found: &mut Found,
    ) -> Answer<u64>;

    pub fn yz_range_coverage(
        s: Ptr, n: usize, t: Ptr, m: usize, table_base: u64, encoding: Encoding, offset: u64,
        base_address: u64, begins: *mut Bounds, ends: *mut Bounds,
    ) -> Answer<u64>;
    pub fn yz_range_runs(
        s: Ptr, n: usize, t: Ptr, m: usize, table_base: u64, encoding: Encoding, offset: u64,
        base_address: u64, begins: *mut u64, begins_len: usize, ends: *mut u64, ends_len: usize,
    ) -> Answer<u64>;
    pub fn yz_location_coverage(
        s: Ptr, n: usize, t: Ptr, m: usize, table_base: u64, encoding: Encoding, file_type: u32,
        offset: u64, base_address: u64, begins: *mut Bounds, ends: *mut Bounds,
    ) -> Answer<u64>;
    pub fn yz_location_runs(
        s: Ptr, n: usize, t: Ptr, m: usize, table_base: u64, encoding: Encoding, file_type: u32,
        offset: u64, base_address: u64, begins: *mut u64, begins_len: usize, ends: *mut u64,
        ends_len: usize,
    ) -> Answer<u64>;
    pub fn yz_coverage_from_canonical(
        s: Ptr, n: usize, begins: *mut Bounds, ends: *mut Bounds,
    ) -> Answer<u64>;
    pub fn yz_coverage_from_sheet(
        s: Ptr, n: usize, begins: *mut Bounds, ends: *mut Bounds,
    ) -> Answer<u64>;
    pub fn yz_sheet(
        n: u64, begins: &Bounds, ends: &Bounds, output: *mut u8, len: usize,
    ) -> Answer<u64>;
    pub fn yz_canonical(
        n: u64, begins: &Bounds, ends: &Bounds, output: *mut u8, len: usize,
    ) -> Answer<u64>;
    pub fn yz_range_canonical(
        s: Ptr, n: usize, t: Ptr, m: usize, table_base: u64, encoding: Encoding, offset: u64,
        base_address: u64, output: *mut u8, len: usize,
    ) -> Answer<u64>;
    pub fn yz_location_canonical(
        s: Ptr, n: usize, t: Ptr, m: usize, table_base: u64, encoding: Encoding, file_type: u32,
        offset: u64, base_address: u64, output: *mut u8, len: usize,
    ) -> Answer<u64>;

    pub fn yz_is_canonical(s: Ptr, n: usize) -> bool;

    pub fn yz_kinds_load(table: Ptr, table_len: usize) -> Done;
    pub fn yz_range_next_by(
        s: Ptr, n: usize, t: Ptr, m: usize, table_base: u64, encoding: Encoding, kinds: Ptr,
        kinds_len: usize, walk: &mut Walk,
    ) -> Answer<Range>;
    pub fn yz_range_next_in_profile_by(
        s: Ptr, n: usize, t: Ptr, m: usize, table_base: u64, encoding: Encoding, kinds: Ptr,
        kinds_len: usize, walk: &mut Walk,
    ) -> Answer<Range>;
    pub fn yz_range_next_raw_by(
        s: Ptr, n: usize, encoding: Encoding, kinds: Ptr, kinds_len: usize, walk: &mut Walk,
    ) -> Answer<RawRange>;
    pub fn yz_range_lookup_by(
        s: Ptr, n: usize, t: Ptr, m: usize, table_base: u64, encoding: Encoding, offset: u64,
        base_address: u64, kinds: Ptr, kinds_len: usize, address: u64,
    ) -> Answer<Range>;
    pub fn yz_range_lookups_by(
        s: Ptr, n: usize, t: Ptr, m: usize, table_base: u64, encoding: Encoding, offset: u64,
        base_address: u64, kinds: Ptr, kinds_len: usize, addresses: *const u64,
        addresses_len: usize, found: &mut Found,
    ) -> Answer<u64>;
    pub fn yz_range_coverage_by(
        s: Ptr, n: usize, t: Ptr, m: usize, table_base: u64, encoding: Encoding, offset: u64,
        base_address: u64, kinds: Ptr, kinds_len: usize, begins: *mut Bounds, ends: *mut Bounds,
    ) -> Answer<u64>;
    pub fn yz_range_runs_by(
        s: Ptr, n: usize, t: Ptr, m: usize, table_base: u64, encoding: Encoding, offset: u64,
        base_address: u64, kinds: Ptr, kinds_len: usize, begins: *mut u64, begins_len: usize,
        ends: *mut u64, ends_len: usize,
    ) -> Answer<u64>;
    pub fn yz_range_canonical_by(
        s: Ptr, n: usize, t: Ptr, m: usize, table_base: u64, encoding: Encoding, offset: u64,
        base_address: u64, kinds: Ptr, kinds_len: usize, output: *mut u8, len: usize,
    ) -> Answer<u64>;
}
