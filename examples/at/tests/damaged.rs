//! Files with damaged bytes: at and lists always come to an answer.

use object::{Object, ObjectSection};
use yeltzarun::KindTable;
use yeltzarun_at::file::File;
use yeltzarun_at::program::Program;
use yeltzarun_at::{listing, scope, text};

/// Each way to ask, whatever the answer.
fn ask(bytes: Vec<u8>) {
    let bytes = Box::leak(bytes.into_boxed_slice());
    let Ok(file) = File::of("damaged".into(), bytes) else { return };
    let Ok(program) = Program::of(&file, Vec::new(), &KindTable::DWARF) else { return };
    for address in [0x1000, 0x1004, 0x1160, 0x1170] {
        let answer = scope::at(&program, address);
        let _ = (text::answer(address, &answer), answer.status());
    }
    let _ = listing::lists(&program).status();
}

#[test]
fn every_damaged_byte_is_answered() {
    // The files are made by run-tests; without it there is nothing to damage.
    let Some(paths) = std::env::var_os("AT_DAMAGED") else { return };
    for path in paths.to_str().unwrap().split_whitespace() {
        let bytes = std::fs::read(path).unwrap();
        let object = object::File::parse(&bytes[..]).unwrap();
        let debug =
            object.sections().filter(|section| section.name().unwrap().starts_with(".debug_"));
        let places = debug.filter_map(|section| section.file_range()).collect::<Vec<_>>();
        assert!(!places.is_empty());
        for (offset, size) in places {
            let end = (offset + size) as usize;
            for at in offset as usize..end {
                for damage in [|byte| byte ^ 0xff, |byte| byte ^ 0x01, |_| 0] {
                    let mut bytes = bytes.clone();
                    bytes[at] = damage(bytes[at]);
                    ask(bytes);
                }
                let mut bytes = bytes.clone();
                bytes[at..end.min(at + 8)].fill(0xff);
                ask(bytes);
            }
        }
        // The headers, and the file cut short.
        for at in (0..bytes.len().min(64)).chain(bytes.len().saturating_sub(64 * 30)..bytes.len()) {
            let mut bytes = bytes.clone();
            bytes[at] ^= 0xff;
            ask(bytes);
        }
        for at in (0..bytes.len()).step_by(61) {
            ask(bytes[..at].to_vec());
        }
    }
}
