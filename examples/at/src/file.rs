//! ELF files and their sections.

use crate::wrong::{Outcome, Wrong};
use gimli::RunTimeEndian;
use object::{CompressionFormat, Object, ObjectKind, ObjectSection};
use std::borrow::Cow;
use std::path::Path;

/// An ELF file.
pub struct File {
    pub path: String,
    object: object::File<'static>,
}

impl File {
    /// The file at a path.
    pub fn open(path: &Path) -> Outcome<File> {
        let bytes = std::fs::read(path).map_err(Wrong::parse(&path.display().to_string()))?;
        File::of(path.display().to_string(), Box::leak(bytes.into_boxed_slice()))
    }

    /// The file of these bytes.
    pub fn of(path: String, bytes: &'static [u8]) -> Outcome<File> {
        if !bytes.starts_with(b"\x7fELF") {
            return Err(Wrong::Unreadable(format!("{path}: not an ELF file")));
        }
        let object = object::File::parse(bytes).map_err(Wrong::parse(&path))?;
        Ok(File { path, object })
    }

    pub fn endian(&self) -> RunTimeEndian {
        if self.object.is_little_endian() { RunTimeEndian::Little } else { RunTimeEndian::Big }
    }

    pub fn machine(&self) -> object::Architecture {
        self.object.architecture()
    }

    /// Whether the file has still to be linked, so that its sections lack what relocations add.
    pub fn is_relocatable(&self) -> bool {
        self.object.kind() == ObjectKind::Relocatable
    }

    pub fn has(&self, name: &str) -> bool {
        self.object.section_by_name(name).is_some()
    }

    /// The bytes of a section, uncompressed; none where the file has no such section.
    pub fn section(&self, name: &str) -> Outcome<Option<&'static [u8]>> {
        let Some(section) = self.object.section_by_name(name) else { return Ok(None) };
        let place = format!("{}: {name}", self.path);
        let wrong = |what: &str| Wrong::Unreadable(format!("{place}: {what}"));
        let data = section.compressed_data().map_err(|error| {
            wrong(&format!("{error}; compressed sections are read where they are of zlib"))
        })?;
        if data.format == CompressionFormat::None {
            return Ok(Some(data.data));
        }
        // zlib makes 1 byte of input into 1,032 at most, so a larger size is a lie; it isn't allocated.
        let size = data.uncompressed_size;
        if size / 1032 > data.data.len() as u64 {
            return Err(wrong("the compressed section's size is not the one that it gives"));
        }
        match data.decompress().map_err(Wrong::parse(&place))? {
            Cow::Borrowed(bytes) => Ok(Some(bytes)),
            Cow::Owned(bytes) if bytes.len() as u64 == size => {
                Ok(Some(Box::leak(bytes.into_boxed_slice())))
            }
            Cow::Owned(_) => {
                Err(wrong("the compressed section's size is not the one that it gives"))
            }
        }
    }

    /// The name of the file with the debug information, where this file names one.
    pub fn debug_link(&self) -> Option<String> {
        let (name, _) = self.object.gnu_debuglink().ok()??;
        Some(String::from_utf8_lossy(name).into_owned())
    }
}
