//! Byte orders, encodings, offsets, bases and indexes.

use super::ffi;

/// A byte order that is known at run time.
#[derive(Debug, Default, Clone, Copy, PartialEq, Eq, Hash)]
pub enum RunTimeEndian {
    /// The lowest byte first.
    #[default]
    Little,
    /// The highest byte first.
    Big,
}

impl RunTimeEndian {
    /// Whether the highest byte comes first.
    pub fn is_big_endian(self) -> bool {
        self == RunTimeEndian::Big
    }
}

/// Whether a unit is of the 32-bit or the 64-bit format.
#[derive(Debug, Clone, Copy, PartialEq, Eq, Hash)]
pub enum Format {
    /// 64-bit DWARF.
    Dwarf64,
    /// 32-bit DWARF.
    Dwarf32,
}

impl Format {
    pub(super) fn of(dwarf64: bool) -> Format {
        if dwarf64 { Format::Dwarf64 } else { Format::Dwarf32 }
    }

    pub(super) fn is_dwarf64(self) -> bool {
        self == Format::Dwarf64
    }

    /// How many bytes an initial length has.
    pub fn initial_length_size(self) -> u8 {
        if self.is_dwarf64() { 12 } else { 4 }
    }

    /// How many bytes an offset has.
    pub fn word_size(self) -> u8 {
        if self.is_dwarf64() { 8 } else { 4 }
    }
}

/// How a unit is written.
#[derive(Debug, Clone, Copy, PartialEq, Eq, Hash)]
pub struct Encoding {
    /// The size of an address in bytes.
    pub address_size: u8,
    /// The format.
    pub format: Format,
    /// The version.
    pub version: u16,
}

impl Encoding {
    pub(super) fn of(encoding: ffi::Encoding) -> Encoding {
        Encoding {
            address_size: encoding.address_size,
            format: Format::of(encoding.dwarf64),
            version: encoding.version,
        }
    }

    /// The same with a byte order.
    pub(super) fn in_order(self, endian: RunTimeEndian) -> ffi::Encoding {
        ffi::Encoding {
            version: self.version,
            address_size: self.address_size,
            dwarf64: self.format.is_dwarf64(),
            big_endian: endian.is_big_endian().into(),
        }
    }
}

/// Whether a section is of a main file or of a split one.
#[derive(Debug, Default, Clone, Copy, PartialEq, Eq, Hash)]
pub enum DwarfFileType {
    /// The main file.
    #[default]
    Main,
    /// A .dwo file.
    Dwo,
}

impl DwarfFileType {
    pub(super) fn number(self) -> u32 {
        match self {
            DwarfFileType::Main => ffi::FILE_MAIN,
            DwarfFileType::Dwo => ffi::FILE_DWO,
        }
    }
}

macro_rules! numbers {
    ($($(#[$doc:meta])* $name:ident;)*) => {
        $($(#[$doc])*
        #[derive(Debug, Default, Clone, Copy, PartialEq, Eq, PartialOrd, Ord, Hash)]
        pub struct $name(pub u64);)*
    };
}

numbers! {
    /// Where the addresses of a unit's table begin in `.debug_addr`.
    DebugAddrBase;
    /// The number of an address in its table.
    DebugAddrIndex;
    /// A place in `.debug_addr`.
    DebugAddrOffset;
    /// Where a range list begins in its section.
    RangeListsOffset;
    /// Where the offsets of a unit begin in `.debug_rnglists`.
    DebugRngListsBase;
    /// The number of an offset in its table.
    DebugRngListsIndex;
    /// Where a location list begins in its section.
    LocationListsOffset;
    /// Where the offsets of a unit begin in `.debug_loclists`.
    DebugLocListsBase;
    /// The number of an offset in its table.
    DebugLocListsIndex;
}

impl DebugRngListsBase {
    /// The base where no attribute gives one.
    pub fn default_for_encoding_and_file(
        encoding: Encoding,
        file_type: DwarfFileType,
    ) -> DebugRngListsBase {
        // The byte order makes no difference.
        let encoding = encoding.in_order(RunTimeEndian::Little);
        DebugRngListsBase(ffi::yz_range_default_base(encoding, file_type.number()))
    }
}

impl DebugLocListsBase {
    /// The base where no attribute gives one.
    pub fn default_for_encoding_and_file(
        encoding: Encoding,
        file_type: DwarfFileType,
    ) -> DebugLocListsBase {
        // The byte order makes no difference.
        let encoding = encoding.in_order(RunTimeEndian::Little);
        DebugLocListsBase(ffi::yz_location_default_base(encoding, file_type.number()))
    }
}
