//! Runs the examples of docs/SCOPE.md and the open points of docs/DECISIONS.md through
//! the oracle, and says which answers differ from the ones stated there.

// The declarations of the wrapper, for the limit.
#[allow(dead_code)]
#[path = "../bindings/yeltzarun/ffi.rs"]
#[rustfmt::skip]
mod ffi;

use ffi::LIMIT;
use oracle::oracle_api::*;

#[derive(Default)]
struct Check {
    run: usize,
    wrong: usize,
}

impl Check {
    fn same<T: PartialEq + std::fmt::Debug>(&mut self, name: &str, got: T, stated: T) {
        self.run += 1;
        if got != stated {
            self.wrong += 1;
            println!("differs: {name}\n  stated {stated:x?}\n  gimli  {got:x?}");
        }
    }
}

fn bytes(text: &str) -> Vec<u8> {
    text.split_whitespace().map(|byte| u8::from_str_radix(byte, 16).unwrap()).collect()
}

fn join(parts: &[&[u8]]) -> Vec<u8> {
    parts.concat()
}

/// The scope's usual list: version 5, size 4, little-endian, base 0.
fn list(kind: Kind, section: &[u8]) -> List<'_> {
    List {
        kind,
        old: section,
        new: section,
        offset: 0,
        version: 5,
        address_size: 4,
        dwarf64: false,
        big_endian: false,
        base_address: 0,
        table: &[],
        table_base: 0,
    }
}

fn range(begin: u64, end: u64) -> Answer<Yielded> {
    Answer::Entry(Yielded { begin, end, expression: None })
}

fn location(begin: u64, end: u64, offset: u64, length: u64) -> Answer<Yielded> {
    Answer::Entry(Yielded { begin, end, expression: Some(Place { offset, length }) })
}

fn no(number: u8, value: u64) -> Refusal {
    Refusal { number, value }
}

fn refused<T>(number: u8, value: u64) -> Answer<T> {
    Answer::Refused(no(number, value))
}

fn entry(form: Form, first: u64, second: u64) -> Raw {
    Raw { form, first, second, expression: None }
}

const TABLE: &str = "0c 00 00 00 05 00 04 00 10 00 00 00 20 00 00 00";

fn main() {
    let mut check = Check::default();
    examples(&mut check);
    kinds(&mut check);
    false_friends(&mut check);
    refusals(&mut check);
    rules(&mut check);
    counts(&mut check);
    marks(&mut check);
    padded(&mut check);
    renumbered(&mut check);
    defaults(&mut check);
    stacks(&mut check);
    profile(&mut check);
    open_points(&mut check);
    differences(&mut check);
    println!("{} examples, {} differ", check.run, check.wrong);
    std::process::exit(i32::from(check.wrong != 0));
}

fn examples(c: &mut Check) {
    use Kind::*;
    let end = Answer::End;

    for kind in [Ranges, Locations, SplitLocations] {
        c.same("00", walk(&list(kind, &[0]), 9), vec![end]);
        c.same("empty section, offset 0", walk(&list(kind, &[]), 9), vec![end]);
        let past = List { offset: 1, ..list(kind, &[]) };
        c.same("empty section, offset 1", walk(&past, 9), vec![refused(1, 0)]);
        c.same("empty section, offset 1, raw", RawWalk::open(&past).err(), Some(no(1, 0)));
    }

    let b = bytes("06 10 00 00 00 20 00 00 00 00");
    c.same("start, end", walk(&list(Ranges, &b), 9), vec![range(0x10, 0x20), end]);

    let b = bytes("04 01 82 00 00");
    let l = List { base_address: 0x1000, ..list(Ranges, &b) };
    c.same("padded offset pair", walk(&l, 9), vec![range(0x1001, 0x1002), end]);

    let b = bytes("04 00 01 00");
    let l = List { base_address: 0xfffffffd, ..list(Ranges, &b) };
    c.same("base below the bound", walk(&l, 9), vec![range(0xfffffffd, 0xfffffffe), end]);
    let l = List { base_address: 0xfffffffe, ..list(Ranges, &b) };
    c.same("base at the bound", walk(&l, 9), vec![end]);

    let b = bytes("04 80 02 90 02 00");
    let l = List { base_address: 0xffffff00, ..list(Ranges, &b) };
    c.same("wrapped sum", walk(&l, 9), vec![range(0, 0x10), end]);

    let b = bytes("07 f0 0f 00");
    let l = List { address_size: 1, ..list(Ranges, &b) };
    c.same("size 1, 07 f0 0f", walk(&l, 9), vec![range(0xf0, 0xff), end]);
    let b = bytes("07 f0 20 00");
    let l = List { address_size: 1, ..list(Ranges, &b) };
    c.same("size 1, 07 f0 20", walk(&l, 9), vec![end]);

    let nine = [0x80; 9];
    c.same("nine 80, 01", uleb128(&join(&[&nine, &[1]])), Ok((1 << 63, 10)));
    c.same("nine 80, 00", uleb128(&join(&[&nine, &[0]])), Ok((0, 10)));
    c.same("nine 80, 02", uleb128(&join(&[&nine, &[2]])), Err(no(2, 0)));

    let b = bytes("ff ff 00 20 01 00 03 00 00 00 00 00");
    let l = List { version: 4, address_size: 2, ..list(Ranges, &b) };
    c.same("version 4, base selection", walk(&l, 9), vec![range(0x2001, 0x2003), end]);

    let table = bytes(TABLE);
    let b = bytes("02 00 02 03 00 08 00");
    let l = List { table: &table, table_base: 8, ..list(Ranges, &b) };
    c.same("failed lookup", walk(&l, 9), vec![refused(1, 0), range(0x10, 0x18), end]);

    let b = bytes("05 01 50 00");
    c.same("default", walk(&list(Locations, &b), 9), vec![location(0, u64::MAX, 2, 1), end]);
    c.same("expression", b[2], 0x50);

    let b = bytes("03 00 08 00 00 00 01 00 50 00");
    let l = List { version: 4, table: &table, table_base: 8, ..list(SplitLocations, &b) };
    c.same("split, version 4", walk(&l, 9), vec![location(0x10, 0x18, 8, 1), end]);
    c.same("expression", b[8], 0x50);

    // gimli makes no canonical lists; it walks them.
    let b = bytes("07 10 00 00 00 00 00 00 00 20 00");
    let l = List { address_size: 8, ..list(Ranges, &b) };
    c.same("canonical list", walk(&l, 9), vec![range(0x10, 0x30), end]);
    let b = bytes("06 20 00 00 00 30 00 00 00 06 10 00 00 00 20 00 00 00 00");
    let l = list(Ranges, &b);
    c.same("its source", walk(&l, 9), vec![range(0x20, 0x30), range(0x10, 0x20), end]);
}

/// The scope's table of kinds: every number, by the form it is read as.
fn kinds(c: &mut Check) {
    use Form::*;
    let table = [
        (BaseIndex, Some(1), 1, 0),
        (StartEndIndex, Some(2), 2, 2),
        (StartLengthIndex, Some(3), 2, 2),
        (OffsetPair, Some(4), 2, 2),
        (Default, None, 0, 2),
        (Base, Some(5), 1, 0),
        (StartEnd, Some(6), 2, 2),
        (StartLength, Some(7), 2, 2),
    ];
    for (code, (form, range_code, numbers, expression)) in (1..).zip(table) {
        let operands = &[0x21, 0x43][..numbers];
        let (first, second) = [(0, 0), (0x21, 0), (0x21, 0x43)][numbers];
        let mut raw = entry(form, first, second);
        if let Some(code) = range_code {
            let b = join(&[&[code], operands, &[0]]);
            let l = List { address_size: 1, ..list(Kind::Ranges, &b) };
            c.same("range kind", walk_raw(&l, 9), vec![Answer::Entry(raw), Answer::End]);
        }
        let b = join(&[&[code], operands, &[1, 0x50][..expression], &[0]]);
        if expression > 0 {
            raw.expression = Some(Place { offset: numbers as u64 + 2, length: 1 });
        }
        for kind in [Kind::Locations, Kind::SplitLocations] {
            let l = List { address_size: 1, ..list(kind, &b) };
            c.same("location kind", walk_raw(&l, 9), vec![Answer::Entry(raw), Answer::End]);
        }
    }
}

fn false_friends(c: &mut Check) {
    use Kind::*;
    let end = Answer::End;
    // The base is at the bound, the wrapped sums are 0 and 1.
    let b = bytes("04 02 03 00");
    let l = List { base_address: 0xfffffffe, ..list(Ranges, &b) };
    c.same("the base is tested", walk(&l, 9), vec![end]);
    let b = bytes("06 10 00 00 00 20 00 00 00");
    c.same("no end mark", walk(&list(Ranges, &b), 9), vec![range(0x10, 0x20), end]);
    let b = bytes("05 05 01 02 00 00");
    let l = List { version: 4, address_size: 1, ..list(Ranges, &b) };
    c.same("begin = end in a bare pair", walk(&l, 9), vec![range(1, 2), end]);
}

fn list_refusal(header: &str) -> Option<Refusal> {
    lists_header(&bytes(header), false).err()
}

fn table_refusal(header: &str) -> Option<Refusal> {
    match Tables::open(&bytes(header), false).next() {
        Answer::Refused(refusal) => Some(refusal),
        _ => None,
    }
}

fn refusals(c: &mut Check) {
    use Kind::*;
    let one = |kind, b: &[u8]| walk_raw(&list(kind, b), 9);
    let end = Answer::End;
    c.same("1", one(Ranges, &bytes("06 10 00")), vec![refused(1, 0), end]);
    let b = join(&[&[4], &[0x80; 9], &[2]]);
    c.same("2", one(Ranges, &b), vec![refused(2, 0), end]);
    c.same("3", one(Ranges, &[8]), vec![refused(3, 8), end]);
    c.same("3, ff", one(Ranges, &[0xff]), vec![refused(3, 0xff), end]);
    c.same("4", one(Locations, &[9]), vec![refused(4, 9), end]);
    c.same("4, split", one(SplitLocations, &[9]), vec![refused(4, 9), end]);
    for (name, header) in [("list", list_refusal as fn(&str) -> _), ("table", table_refusal)] {
        let mut same = |text: &str, number, value| {
            c.same(&format!("{name} header {text}"), header(text), Some(no(number, value)));
        };
        same("08 00 00 00 04 00 04 00 00 00 00 00", 5, 4);
        same("08 00 00 00 05 00 03 00 00 00 00 00", 6, 3);
        same("08 00 00 00 05 00 04 01 00 00 00 00", 7, 1);
        same("f0 ff ff ff", 8, 0xfffffff0);
        same("fe ff ff ff", 8, 0xfffffffe);
        // The order of the checks is that of the bytes.
        same("ff ff ff ff 00 00 00 00", 1, 0);
        same("09 00 00 00 04 00 03 01 00 00 00 00", 1, 0);
        same("01 00 00 00 04 00", 1, 0);
        same("08 00 00 00 04 00 03 01 00 00 00 00", 5, 4);
        same("08 00 00 00 05 00 03 01 00 00 00 00", 6, 3);
        same("02 00 00 00 05 00 04 01", 1, 0);
        same("03 00 00 00 05 00 04 01", 1, 0);
    }
    let got = list_refusal("04 00 00 00 05 00 04 00 00 00 00 00");
    c.same("list header without a count", got, Some(no(1, 0)));
    c.same("9", get_address(&[0; 64], false, 8, 0, 1 << 61), Err(no(9, 0)));
    for kind in [Ranges, Locations] {
        let got = get_offset(kind, &[0; 64], false, true, 0, 1 << 61);
        c.same("9, get_offset", got, OffsetAnswer::Refused(no(9, 0)));
        let got = get_offset(kind, &[0; 64], false, false, 0, 1 << 62);
        c.same("9, get_offset, 32-bit", got, OffsetAnswer::Refused(no(9, 0)));
    }
    let b = bytes("07 10 00 00 00 01").repeat(LIMIT + 1);
    let answers = walk(&list(Ranges, &b), LIMIT + 3);
    c.same("10's list", answers, [vec![range(0x10, 0x11); LIMIT + 1], vec![Answer::End]].concat());
}

fn rules(c: &mut Check) {
    use Kind::*;
    let end = Answer::End;

    for size in [1, 2, 4, 8] {
        let top = u64::MAX >> (64 - 8 * u32::from(size));
        c.same("min_tombstone", min_tombstone(size), top - 1);
        c.same("ones_sized", ones_sized(size), top);
        c.same("wrapping_add_sized", wrapping_add_sized(top, 3, size), 2);
        c.same("wrapping_add_sized, 2^64", wrapping_add_sized(u64::MAX, u64::MAX, size), top - 1);
    }

    c.same(
        "initial length",
        initial_length(&bytes("ef ff ff ff"), false),
        Ok((0xffffffef, false, 4)),
    );
    let b = bytes("ff ff ff ff 01 00 00 00 00 00 00 80");
    c.same("initial length, 64-bit", initial_length(&b, false), Ok(((1 << 63) + 1, true, 12)));

    let b = bytes("08 00 00 00 05 00 04 00 02 00 00 00 aa");
    let stated = Lists {
        dwarf64: false,
        version: 5,
        address_size: 4,
        entry_count: 2,
        size: 12,
        rest: Place { offset: 12, length: 0 },
    };
    c.same("list header", lists_header(&b, false), Ok(stated));
    let b = bytes("ff ff ff ff 00 00 00 00 00 00 00 09 00 05 08 00 00 00 00 03 aa bb");
    let stated = Lists {
        dwarf64: true,
        version: 5,
        address_size: 8,
        entry_count: 3,
        size: 20,
        rest: Place { offset: 20, length: 1 },
    };
    c.same("list header, 64-bit, big-endian", lists_header(&b, true), Ok(stated));

    // The padding is 0 for every size in both formats.
    for size in [1, 2, 4, 8] {
        for dwarf64 in [false, true] {
            let mut b = if dwarf64 {
                bytes("ff ff ff ff 0c 00 00 00 00 00 00 00 05 00 00 00")
            } else {
                bytes("0c 00 00 00 05 00 00 00")
            };
            let header = b.len() as u64;
            b[header as usize - 2] = size;
            b.extend([0x11; 8]);
            let mut tables = Tables::open(&b, false);
            let Answer::Entry((table, _)) = tables.next() else { panic!("no table") };
            c.same("no padding", table.entries, Place { offset: header, length: 8 });
            c.same("place after it", tables.place(), header + 8);
        }
    }

    // After a refusal both table iterators are emptied.
    let b = bytes("04 00 00 00 04 00 04 00 04 00 00 00 05 00 04 00");
    let mut tables = Tables::open(&b, false);
    c.same("bad table", tables.next().is(), refused(5, 4));
    c.same("emptied", (tables.next().is(), tables.place()), (Answer::End, 16));

    // Split lists up to version 4: kind 3's length is four bytes, an
    // expression's two; kind 4's numbers and kind 8's length stay LEB128.
    for version in [2, 3, 4] {
        let split = |text: &str| {
            let b = bytes(text);
            walk(&List { version, ..list(SplitLocations, &b) }, 9)
        };
        c.same("split kind 4", split("04 01 82 00 01 00 50 00"), vec![location(1, 2, 6, 1), end]);
        c.same("split kind 5", split("05 01 00 50 00"), vec![location(0, u64::MAX, 3, 1), end]);
        c.same(
            "split kind 6",
            split("06 00 10 00 00 04 01 02 00 00 00"),
            vec![location(0x1001, 0x1002, 10, 0), end],
        );
        c.same(
            "split kind 7",
            split("07 10 00 00 00 20 00 00 00 01 00 50 00"),
            vec![location(0x10, 0x20, 11, 1), end],
        );
        c.same(
            "split kind 8",
            split("08 10 00 00 00 81 00 01 00 50 00"),
            vec![location(0x10, 0x11, 9, 1), end],
        );
        c.same("split kind 1", split("01 00 00"), vec![refused(1, 0), end]);
        c.same("split kind 2", split("02 00 01 00 00 00"), vec![refused(1, 0), end]);
    }

    // Length ff ff ff ff, as met in the field.
    let b = bytes("03 00 ff ff ff ff 00 00");
    let table = bytes("10 00 00 00 00 00 00 00");
    let at = |address_size| {
        let l = List { version: 4, address_size, table: &table, ..list(SplitLocations, &b) };
        walk(&l, 9)
    };
    c.same("4 GB at size 8", at(8), vec![location(0x10, 0x10000000f, 8, 0), end]);
    c.same("skipped at size 4", at(4), vec![end]);

    // Versions below 3 are read as 3, above 5 as 5.
    let b = bytes("01 00 02 00 03 00 50 51 52 00 00 00 00");
    for kind in [Ranges, Locations, SplitLocations] {
        let at = |version| walk_raw(&List { version, address_size: 2, ..list(kind, &b) }, 9);
        for version in [0, 1, 2, 4] {
            c.same("version below 5", at(version), at(3));
        }
        for version in [6, 7, 0xffff] {
            c.same("version above 5", at(version), at(5));
        }
    }
    let l = List { version: 4, address_size: 2, ..list(Locations, &b) };
    c.same("bare location", walk(&l, 9), vec![location(1, 2, 6, 3), end]);

    // The choosing call.
    let (old, new) = (bytes("01 02 00 00"), bytes("04 03 04 00"));
    let at = |version| walk(&List { old: &old, version, address_size: 1, ..list(Ranges, &new) }, 9);
    c.same("old section", at(4), vec![range(1, 2), end]);
    c.same("new section", at(5), vec![range(3, 4), end]);

    // A failed lookup leaves base and place; a raw refusal empties the walk.
    let b = bytes("01 00 04 01 02 08 00");
    let l = List { base_address: 0x100, ..list(Ranges, &b) };
    let mut w = Walk::open(&l).unwrap();
    let mut at = |name: &str, answer, place, entries| {
        c.same(name, w.next(), answer);
        c.same(name, w.state(), State { place, base_address: 0x100, entries });
    };
    at("failed lookup", refused(1, 0), 2, 1);
    at("next entry", range(0x101, 0x102), 5, 2);
    at("raw refusal", refused(3, 8), 7, 2);
    at("end", Answer::End, 7, 2);

    // A wrapped-around begin at the bound and a begin not below the end.
    let b = bytes("06 fe ff 06 fd ff 06 20 10 06 20 20 00");
    let l = List { address_size: 1, ..list(Ranges, &b) };
    c.same("skips", walk(&l, 9), vec![range(0xfd, 0xff), end]);

    // get_offset.
    let b = bytes("08 00 00 00 05 00 04 00 01 00 00 00 04 00 00 00 00");
    for kind in [Ranges, Locations] {
        let at = |base, index| get_offset(kind, &b, false, false, base, index);
        c.same("get_offset", at(12, 0), OffsetAnswer::Offset(16));
        c.same("get_offset past the end", at(12, 1), OffsetAnswer::Refused(no(1, 0)));
        c.same("get_offset, base past the end", at(18, 1 << 62), OffsetAnswer::Refused(no(1, 0)));
        c.same("get_offset, product", at(17, 1 << 62), OffsetAnswer::Refused(no(9, 0)));
    }
    let table = [0; 8];
    c.same("base before product", get_address(&table, false, 8, 9, 1 << 61), Err(no(1, 0)));
    c.same("product before size", get_address(&table, false, 3, 0, u64::MAX), Err(no(9, 0)));
    c.same("size before end", get_address(&table, false, 3, 8, 0), Err(no(6, 3)));
    c.same("size 0", get_address(&table, false, 0, 8, u64::MAX), Err(no(6, 0)));
}

/// How many entries are read: gimli has no count, so these are the counts that
/// are made with its raw walk.
fn counts(c: &mut Check) {
    use Kind::*;
    let end = Answer::End;
    // The answers of `next` up to the first end, each with place and count.
    let mut same = |name: &str, l: &List, stated: &[(Answer<Yielded>, u64, u64)]| {
        let mut w = Walk::open(l).unwrap();
        let opened = State { place: l.offset, base_address: l.base_address, entries: 0 };
        c.same(name, w.state(), opened);
        for &(answer, place, entries) in stated.iter().chain(&stated[stated.len() - 1..]) {
            let (got, state) = (w.next(), w.state());
            c.same(name, (got, state.place, state.entries), (answer, place, entries));
        }
        let counted = stated.iter().map(|&(answer, _, entries)| (answer, entries)).collect();
        c.same(name, walk_counted(l), counted);
    };
    for kind in [Ranges, Locations, SplitLocations] {
        same("counted: nothing", &list(kind, &[]), &[(end, 0, 0)]);
        same("counted: 00", &list(kind, &[0]), &[(end, 1, 1)]);
        let l = List { offset: 1, ..list(kind, &[9, 0, 9]) };
        same("counted: 00 at 1", &l, &[(end, 3, 1)]);
    }
    let b = bytes("06 10 00 00 00 20 00 00 00 00");
    let one = range(0x10, 0x20);
    same("counted: one", &list(Ranges, &b), &[(one, 9, 1), (end, 10, 2)]);
    same("counted: no end mark", &list(Ranges, &b[..9]), &[(one, 9, 1), (end, 9, 1)]);
    let pairs = bytes("05 00 10 00 00 04 01 02 04 03 03 04 05 06 00 ff");
    let (first, last) = (range(0x1001, 0x1002), range(0x1005, 0x1006));
    let stated = [(first, 8, 2), (last, 14, 4), (end, 16, 5)];
    same("counted: base and pairs", &list(Ranges, &pairs), &stated);
    let table = bytes(TABLE);
    let b = bytes("02 00 02 03 00 08 00");
    let l = List { table: &table, table_base: 8, ..list(Ranges, &b) };
    let stated = [(refused(1, 0), 3, 1), (range(0x10, 0x18), 6, 2), (end, 7, 3)];
    same("counted: failed lookup", &l, &stated);
    let b = bytes("07 10 00 00 00 01 08");
    let stated = [(range(0x10, 0x11), 6, 1), (refused(3, 8), 7, 1), (end, 7, 1)];
    same("counted: refused", &list(Ranges, &b), &stated);
    same("counted: 08", &list(Ranges, &[8]), &[(refused(3, 8), 1, 0), (end, 1, 0)]);
    // One byte more would be an entry.
    let l = List { address_size: 1, ..list(Ranges, &[6, 0x10]) };
    same("counted: cut", &l, &[(refused(1, 0), 2, 0), (end, 2, 0)]);
    let b = bytes("ff ff 00 20 03 00 03 00 01 00 03 00 00 00 00 00 01");
    let l = List { version: 4, address_size: 2, ..list(Ranges, &b) };
    same("counted: bare pairs", &l, &[(range(0x2001, 0x2003), 12, 3), (end, 17, 4)]);
    let l = List { version: 4, address_size: 2, ..list(Ranges, &b[..12]) };
    let stated = [(range(0x2001, 0x2003), 12, 3), (end, 12, 3)];
    same("counted: bare pairs, no end mark", &l, &stated);
    let b = bytes("06 00 10 00 00 04 01 02 00 04 03 03 00 04 05 06 00 00 ff");
    let (first, last) = (location(0x1001, 0x1002, 9, 0), location(0x1005, 0x1006, 17, 0));
    let stated = [(first, 9, 2), (last, 17, 4), (end, 19, 5)];
    same("counted: locations", &list(Locations, &b), &stated);
    let b = bytes("03 02 08 00 00 00 00 00 03 00 08 00 00 00 01 00 50 00");
    let l = List { version: 4, table: &table, table_base: 8, ..list(SplitLocations, &b) };
    let stated = [(refused(1, 0), 8, 1), (location(0x10, 0x18, 16, 1), 17, 2), (end, 18, 3)];
    same("counted: split locations", &l, &stated);

    // Converting reads nothing.
    let l = list(Ranges, &pairs);
    let mut w = Walk::open(&l).unwrap();
    for (place, entries) in [(5, 1), (8, 2), (11, 3)] {
        let Answer::Entry(entry) = w.next_raw() else { panic!("no entry") };
        let stated = (place, entries);
        for name in ["counted: raw", "counted: converted"] {
            let state = w.state();
            c.same(name, (state.place, state.entries), stated);
            w.convert_raw(entry);
        }
    }
    let counts = |l: &List| walk_raw_counted(l).iter().map(|&(_, entries)| entries).collect();
    c.same("counted: raw walk", counts(&l), vec![1, 2, 3, 4, 5]);
    c.same(
        "counted: raw walk, no end mark",
        counts(&list(Ranges, &pairs[..14])),
        vec![1, 2, 3, 4, 4],
    );
    c.same("counted: raw walk, cut", counts(&list(Ranges, &pairs[..13])), vec![1, 2, 3, 3, 3]);
}

/// gimli has no marks: a return is a new walk, brought there by the calls of
/// `next` that led to the mark.
fn marks(c: &mut Check) {
    let end = Answer::End;
    let stands = |[place, base_address, entries]: [u64; 3]| State { place, base_address, entries };
    // The walk behind so many calls, and the other answers, each with the walk then.
    let mut same = |name: &str, l: &List, calls, stated: &[(Answer<Yielded>, [u64; 3])]| {
        let mut w = Walk::open(l).unwrap();
        (0..calls).for_each(|_| _ = w.next());
        let opened = [l.offset, l.base_address, 0];
        let back = if calls == 0 { opened } else { stated[calls - 1].1 };
        c.same(name, w.state(), stands(back));
        for &(answer, then) in &stated[calls..] {
            c.same(name, (w.next(), w.state()), (answer, stands(then)));
        }
    };

    let b = bytes("07 10 00 00 00 01 07 20 00 00 00 01 07 30 00 00 00 01 00");
    let l = list(Kind::Ranges, &b);
    let stated = [
        (range(0x10, 0x11), [6, 0, 1]),
        (range(0x20, 0x21), [0xc, 0, 2]),
        (range(0x30, 0x31), [0x12, 0, 3]),
        (end, [0x13, 0, 4]),
    ];
    same("marks: the walk", &l, 0, &stated);
    same("marks: set behind one", &l, 1, &stated);
    same("marks: set again behind two", &l, 2, &stated);

    let b = bytes("05 00 10 00 00 04 01 02 05 00 20 00 00 04 03 04 00");
    let l = list(Kind::Ranges, &b);
    let stated =
        [(range(0x1001, 0x1002), [8, 0x1000, 2]), (range(0x2003, 0x2004), [16, 0x2000, 4])];
    same("marks: two bases", &l, 0, &stated);
    same("marks: set with the first base", &l, 1, &stated);

    let (table, b) = (bytes(TABLE), bytes("02 00 02 03 00 08 00"));
    let l = List { table: &table, table_base: 8, ..list(Kind::Ranges, &b) };
    let stated = [(refused(1, 0), [3, 0, 1]), (range(0x10, 0x18), [6, 0, 2]), (end, [7, 0, 3])];
    same("marks: set before a failed lookup", &l, 0, &stated);
}

/// gimli reads padded numbers by their values, and does not say that they are
/// padded; how many bytes they took is told by the place after them.
fn padded(c: &mut Check) {
    use Form::*;
    use Kind::{Locations, Ranges, SplitLocations};
    let numbers = [
        ("00", Ok((0, 1))),
        ("7f", Ok((0x7f, 1))),
        ("80 01", Ok((0x80, 2))),
        ("80 00", Ok((0, 2))),
        ("82 00", Ok((2, 2))),
        ("ff 7f", Ok((0x3fff, 2))),
        ("81 80 00", Ok((1, 3))),
        ("ff ff ff ff ff ff ff ff ff 01", Ok((u64::MAX, 10))),
        ("ff ff ff ff ff ff ff ff 7f", Ok((u64::MAX >> 1, 9))),
        ("81 80 80 80 80 80 80 80 80 80 00", Err(no(2, 0))),
        ("80", Err(no(1, 0))),
    ];
    for (text, stated) in numbers {
        c.same(text, uleb128(&bytes(text)), stated);
    }
    // A raw entry, and the place after it.
    let mut same = |kind, version, text: &str, entry, place| {
        let b = bytes(text);
        let mut w = RawWalk::open(&List { version, ..list(kind, &b) }).unwrap();
        c.same(text, (w.next(), w.place()), (entry, place));
    };
    let bounds = |form, first, second| Answer::Entry(entry(form, first, second));
    same(Ranges, 5, "04 01 82 00 00", bounds(OffsetPair, 1, 2), 4);
    same(Ranges, 5, "04 81 00 02 00", bounds(OffsetPair, 1, 2), 4);
    same(Ranges, 5, "01 80 00 00", bounds(BaseIndex, 0, 0), 3);
    same(Ranges, 5, "07 10 00 00 00 90 00 00", bounds(StartLength, 0x10, 0x10), 7);
    same(Ranges, 5, "04 80 00", refused(1, 0), 3);
    // With an expression of a byte at a place.
    let located = |form, first, second, offset| {
        let expression = Some(Place { offset, length: 1 });
        Answer::Entry(Raw { form, first, second, expression })
    };
    same(Locations, 5, "05 81 00 50 00", located(Default, 0, 0, 3), 4);
    same(Locations, 5, "03 00 88 00 01 50 00", located(StartLengthIndex, 0, 8, 5), 6);
    let mut split = |text, entry, place| same(SplitLocations, 4, text, entry, place);
    split("03 00 08 00 00 00 01 00 50 00", located(StartLengthIndex, 0, 8, 8), 9);
    split("03 80 00 08 00 00 00 01 00 50 00", located(StartLengthIndex, 0, 8, 9), 10);
    split("04 81 00 82 00 01 00 50 00", located(OffsetPair, 1, 2, 7), 8);
    split("08 10 00 00 00 81 00 01 00 50 00", located(StartLength, 0x10, 1, 9), 10);
}

/// gimli has no tables of kind numbers: it walks the lists renumbered, with 255 for
/// a code without a kind.
fn renumbered(c: &mut Check) {
    // Each answer with the place then.
    let mut same = |version, address_size, base_address, text: &str, stated: &[_]| {
        let b = bytes(text);
        let l = List { version, address_size, base_address, ..list(Kind::Ranges, &b) };
        let mut w = Walk::open(&l).unwrap();
        let got: Vec<_> = stated.iter().map(|_| (w.next(), w.state().place)).collect();
        c.same(text, got.as_slice(), stated);
    };
    let end = Answer::End;
    let none = refused(3, 0xff);
    for version in [5, 6] {
        let pair = [(range(0x1001, 0x1005), 3), (end, 4)];
        same(version, 4, 0x1000, "04 01 05 00", &pair);
        same(version, 4, 0x1000, "04 04 05 00", &[(range(0x1004, 0x1005), 3), (end, 4)]);
        same(version, 4, 0, "07 10 00 00 00 08 00", &[(range(0x10, 0x18), 6), (end, 7)]);
        same(version, 4, 0, "00 14", &[(end, 2), (end, 2)]);
        same(version, 4, 0, "00 05", &[(end, 2), (end, 2)]);
        same(version, 4, 0, "ff", &[(none, 1), (end, 1)]);
        same(version, 4, 0, "ff 00", &[(none, 2), (end, 2)]);
        same(version, 4, 0, "ff 00 00", &[(none, 3), (end, 3)]);
        same(version, 4, 0, "ff 01 05 00", &[(none, 4), (end, 4)]);
        same(version, 4, 0, "04 01 05 ff", &[(range(1, 5), 3), (none, 4), (end, 4)]);
        same(version, 4, 0, "ff 10 00 00 00 08 00", &[(none, 7), (end, 7)]);
    }
    for version in [2, 3, 4] {
        let stated = [(range(1, 2), 4), (end, 8)];
        same(version, 2, 0, "01 00 02 00 00 00 00 00", &stated);
    }
}

/// gimli has no lookup: these are the answers that are made with its walk and its raw
/// entries.
fn defaults(c: &mut Check) {
    use Kind::{Locations, SplitLocations};
    let table = bytes(TABLE);
    let not_there = Answer::End;
    let default = |offset| location(0, u64::MAX, offset, 1);
    // Each address with its answer.
    let mut same = |kind, version, address_size, text: &str, stated: &[_]| {
        let b = bytes(text);
        let usual = List { version, address_size, ..list(kind, &b) };
        let l = List { table: &table, table_base: 8, ..usual };
        for &(address, answer) in stated {
            c.same(&format!("{text}, lookup of {address:x}"), lookup(&l, address), answer);
        }
    };
    let mut plain = |text, stated: &[_]| same(Locations, 5, 4, text, stated);

    let first = [
        (0, default(2)),
        (0xf, default(2)),
        (0x10, location(0x10, 0x20, 0xd, 1)),
        (0x1f, location(0x10, 0x20, 0xd, 1)),
        (0x20, default(2)),
        (1 << 32, default(2)),
        (u64::MAX - 1, default(2)),
        (u64::MAX, not_there),
    ];
    plain("05 01 50 07 10 00 00 00 20 00 00 00 01 51 00", &first);
    // The same where the list ends with its section.
    plain("05 01 50 07 10 00 00 00 20 00 00 00 01 51", &first);
    plain("05 01 50", &[(7, default(2)), (u64::MAX, not_there)]);
    plain("05 01 50 05 01 52 00", &[(5, default(2)), (u64::MAX, not_there)]);

    // Damage, also where the default doesn't hold the address.
    let unknown = refused(4, 9);
    plain("05 01 50 09", &[(0x10, unknown), (u64::MAX, unknown)]);
    let found = location(0x10, 0x20, 0xa, 1);
    plain(
        "07 10 00 00 00 20 00 00 00 01 51 05 01 50 09",
        &[(0x10, found), (0x30, unknown), (u64::MAX, unknown)],
    );
    plain("05 01 50 05 02 52", &[(5, refused(1, 0))]);
    plain("05 01 50 02 00 02 01 51 00", &[(5, refused(1, 0)), (u64::MAX, refused(1, 0))]);
    // Behind the failed lookup stands an entry that holds 10.
    let failed = "05 01 50 02 00 02 01 51 07 10 00 00 00 20 00 00 00 01 52 00";
    plain(failed, &[(0x10, refused(1, 0))]);
    // An entry that is skipped holds nothing.
    plain("05 01 50 07 10 00 00 00 10 00 00 00 01 51 00", &[(0x10, default(2))]);

    // Bounded, with the bounds of a default.
    let mut wide = |text: &str, offset| {
        let bounded = location(0, u64::MAX, offset, 1);
        same(Locations, 5, 8, text, &[(5, bounded), (u64::MAX, not_there)]);
    };
    wide("05 01 50 07 00 00 00 00 00 00 00 00 ff ff ff ff ff ff ff ff 01 51 00", 0x15);
    wide("05 01 50 08 00 00 00 00 00 00 00 00 ff ff ff ff ff ff ff ff ff 01 01 51 00", 0x17);
    wide("05 01 50 04 00 ff ff ff ff ff ff ff ff ff 01 01 51 00", 0x10);

    for version in [2, 3, 4] {
        let stated = [(7, default(3)), (u64::MAX, not_there)];
        same(SplitLocations, version, 4, "05 01 00 50 00", &stated);
        let stated = [(0, default(3)), (0x10, location(0x10, 0x18, 0xc, 1)), (0x18, default(3))];
        same(SplitLocations, version, 4, "05 01 00 50 03 00 08 00 00 00 01 00 51 00", &stated);
    }
    for version in [5, 6] {
        same(SplitLocations, version, 4, "05 01 50 00", &[(7, default(2))]);
    }
    // A range list's kind 5 is a base address, and bare pairs have no kinds.
    let moved = [(0x1001, range(0x1001, 0x1002)), (1, not_there)];
    same(Kind::Ranges, 5, 4, "05 00 10 00 00 04 01 02 00", &moved);
    let bare = [(5, location(5, 7, 4, 1)), (7, not_there)];
    same(Locations, 4, 1, "05 07 01 00 50 00 00", &bare);
}

/// gimli has no lookups of many addresses: these are single ones, and how many entries
/// gimli's raw walk gives the longest.
fn stacks(c: &mut Check) {
    use Kind::{Locations, Ranges, SplitLocations};
    let table = bytes(TABLE);
    let not_there = Answer::End;
    // Addresses, their answers, and how many entries are read.
    let mut same = |kind, version, text: &str, stated: &[(&[u64], &[_], u64)]| {
        let b = bytes(text);
        let l = List { version, table: &table, table_base: 8, ..list(kind, &b) };
        for &(addresses, answers, read) in stated {
            let name = format!("{text}, lookups of {addresses:x?}");
            c.same(&name, lookups(&l, addresses), (answers.to_vec(), read));
        }
    };

    let (one, other, unknown) = (range(0x10, 0x20), range(0x30, 0x40), refused(3, 8));
    for version in [5, 6] {
        let stated: [(&[u64], &[_], u64); 9] = [
            (&[], &[], 0),
            (&[0x10], &[one], 1),
            (&[0x10, 0x10, 0x1f], &[one; 3], 1),
            (&[0x10, 0x35], &[one, other], 2),
            (&[0x10, 0x20, 0x35], &[one, unknown, other], 2),
            (&[0x20], &[unknown], 2),
            (&[1; 64], &[unknown; 64], 2),
            (&[0x30, 0x30], &[other; 2], 2),
            (&[0x3f, 0x40, u64::MAX], &[other, unknown, unknown], 2),
        ];
        same(Ranges, version, "07 10 00 00 00 10 07 30 00 00 00 10 08", &stated);
        same(Ranges, version, "07 10 00 00 00 10 07 30 00 00 00 10", &[(&[0x50], &[not_there], 2)]);
        same(Ranges, version, "00", &[(&[5], &[not_there], 1), (&[], &[], 0)]);
    }

    let default = location(0, u64::MAX, 2, 1);
    let bounded = location(0x10, 0x20, 0xd, 1);
    let all: (&[u64], &[_], u64) =
        (&[0, 0x10, 0x20, u64::MAX], &[default, bounded, default, not_there], 3);
    let text = "05 01 50 07 10 00 00 00 20 00 00 00 01 51 00";
    same(Locations, 5, text, &[all, (&[0x10, 0x1f], &[bounded; 2], 2)]);
    let text = "05 01 50 07 10 00 00 00 20 00 00 00 01 51 09";
    let (unknown, held) = (refused(4, 9), [bounded]);
    same(Locations, 5, text, &[(&[0, 0x10], &[unknown, bounded], 2), (&[0x10], &held, 2)]);

    // An entry whose address lookup fails was read.
    let (failed, first) = (refused(1, 0), range(0x10, 0x18));
    let text = "03 00 08 02 00 02 07 30 00 00 00 10 00";
    same(Ranges, 5, text, &[(&[0x10, 0x30], &[first, failed], 2), (&[0x17], &[first], 1)]);
    // The first of two entries that hold an address; base addresses are entries.
    let text = "05 00 10 00 00 04 01 05 04 03 09 00";
    let (low, high) = (range(0x1001, 0x1005), range(0x1003, 0x1009));
    same(Ranges, 5, text, &[(&[0x1003, 0x1005, 0x1009], &[low, high, not_there], 4)]);
    same(Ranges, 5, text, &[(&[0x1004, 0x1008], &[low, high], 3)]);
    for version in [2, 3, 4] {
        let (default, found) = (location(0, u64::MAX, 3, 1), location(0x10, 0x18, 0xc, 1));
        let text = "05 01 00 50 03 00 08 00 00 00 01 00 51 00";
        same(SplitLocations, version, text, &[(&[0, 0x10], &[default, found], 3)]);
        let text = "10 00 00 00 20 00 00 00 00 00 00 00 00 00 00 00";
        same(Ranges, version, text, &[(&[0x1f, 0x20], &[one, not_there], 2)]);
    }

    let past = List { offset: 2, ..list(Ranges, &[0]) };
    c.same("00 at 2, lookups", lookups(&past, &[0, 1]), (vec![refused(1, 0); 2], 0));
}

/// gimli has no profile: these are the answers that are made with its raw entries and
/// its conversion.
fn profile(c: &mut Check) {
    use Kind::{Locations, Ranges, SplitLocations};
    let end = Answer::End;
    let table = bytes(TABLE);
    // The answers up to the first end, each with place and count; then two ends more.
    let mut same = |name: &str, l: &List, stated: &[(Answer<Yielded>, u64, u64)]| {
        let name = &format!("profile: {name}");
        let mut w = Walk::open(l).unwrap();
        let last = *stated.last().unwrap();
        for (answer, place, entries) in stated.iter().copied().chain([last; 2]) {
            let (got, state) = (w.next_in_profile(), w.state());
            c.same(name, (got, state.place, state.entries), (answer, place, entries));
        }
    };
    // A list that breaks: the refusal empties the walk.
    let broken =
        |number, place, entries| [(refused(number, 0), place, entries), (end, place, entries)];

    let mut ranges = |text: &str, stated: &[_]| {
        let b = bytes(text);
        for version in [5, 6] {
            let l = List { version, ..list(Ranges, &b) };
            same(text, &List { table: &table, table_base: 8, ..l }, stated);
        }
    };
    let one = range(0x10, 0x11);
    ranges("05 fe ff ff ff 04 00 01 00", &broken(16, 9, 2));
    ranges("05 fd ff ff ff 04 00 01 00", &[(range(0xfffffffd, 0xfffffffe), 8, 2), (end, 9, 3)]);
    // The base is at the bound, the wrapped sums are 1 and 3, or 3 and 1.
    ranges("05 fe ff ff ff 04 03 05 00", &broken(16, 9, 2));
    ranges("05 fe ff ff ff 04 05 03 00", &broken(16, 9, 2));
    ranges("05 fe ff ff ff 04 03 03 00", &broken(16, 9, 2));
    // Below it the wrapped end is 0.
    ranges("05 fd ff ff ff 04 00 03 00", &broken(17, 9, 2));
    ranges("05 fd ff ff ff 04 01 01 00", &broken(16, 9, 2));
    // A base at the bound alone breaks nothing.
    ranges("05 fe ff ff ff 07 10 00 00 00 01 00", &[(one, 11, 2), (end, 12, 3)]);
    ranges("05 ff ff ff ff 05 00 00 00 00 04 10 11 00", &[(one, 13, 3), (end, 14, 4)]);
    ranges("06 fe ff ff ff ff ff ff ff 00", &broken(16, 10, 1));
    ranges("06 fe ff ff ff fe ff ff ff 00", &broken(16, 10, 1));
    ranges("06 ff ff ff ff 10 00 00 00 00", &broken(16, 10, 1));
    ranges("06 fd ff ff ff fd ff ff ff 00", &[(end, 10, 2)]);
    ranges("06 20 00 00 00 10 00 00 00 00", &broken(17, 10, 1));
    ranges("06 10 00 00 00 10 00 00 00 07 10 00 00 00 01 00", &[(one, 15, 2), (end, 16, 3)]);
    ranges("07 10 00 00 00 00 06 20 00 00 00 10 00 00 00 00", &broken(17, 16, 2));
    ranges("02 01 00 00", &broken(17, 4, 1));
    // A failed lookup comes before 16 and 17, and behind 15.
    let failed = refused(1, 0);
    ranges("02 02 00 07 10 00 00 00 01 00", &[(failed, 3, 1), (one, 9, 2), (end, 10, 3)]);
    ranges("02 01 02 02 01 00", &[(failed, 3, 1), (refused(17, 0), 6, 2), (end, 6, 2)]);
    ranges("02 82 00 00 07 10 00 00 00 01 00", &broken(15, 11, 1));
    ranges("03 00 88 00 00", &broken(15, 5, 1));
    ranges("07 10 00 00 00 81 00 00", &broken(15, 8, 1));
    ranges("01 80 00 00", &broken(15, 4, 1));
    ranges("04 81 00 02 00", &broken(15, 5, 1));
    ranges(
        "07 10 00 00 00 01 04 81 00 82 00 08",
        &[(one, 6, 1), (refused(15, 0), 12, 2), (end, 12, 2)],
    );
    // 15 comes before 16, and a raw refusal before 15.
    ranges("05 fe ff ff ff 04 80 00 01 00", &broken(15, 10, 2));
    ranges("04 80", &[(failed, 2, 0), (end, 2, 0)]);
    ranges("04 80 00", &[(failed, 3, 0), (end, 3, 0)]);
    ranges("00 04 80 00 00", &[(end, 5, 1)]);

    for (text, stated) in [
        ("01 80 00 07 10 00 00 00 01 00", broken(15, 10, 1).as_slice()),
        ("01 00 07 10 00 00 00 01 00", &[(failed, 2, 1), (one, 8, 2), (end, 9, 3)]),
    ] {
        same(&format!("{text}, no table"), &list(Ranges, &bytes(text)), stated);
    }
    // Begin is a tombstone, and the end's row is missing.
    let dead = bytes("fe ff ff ff 10 00 00 00");
    for (text, stated) in [
        ("02 00 02 00", [(failed, 3, 1), (end, 4, 2)]),
        ("02 00 01 00", broken(16, 4, 1)),
        ("02 00 00 00", broken(16, 4, 1)),
        ("02 01 00 00", [(range(0x10, 0xfffffffe), 3, 1), (end, 4, 2)]),
        ("03 00 00 00", broken(16, 4, 1)),
        ("01 00 00", [(end, 3, 2); 2]),
    ] {
        same(
            &format!("{text}, dead row"),
            &List { table: &dead, ..list(Ranges, &bytes(text)) },
            &stated,
        );
    }
    let mut based = |text: &str, address_size, base_address, stated: &[_]| {
        let b = bytes(text);
        let l = List { address_size, base_address, ..list(Ranges, &b) };
        same(&format!("{text}, base {base_address:x}"), &l, stated);
    };
    based("04 01 82 00 00", 4, 0x1000, &broken(15, 5, 1));
    based("04 00 01 00", 4, 0xfffffffe, &broken(16, 4, 1));
    based("04 80 02 90 02 00", 4, 0xffffff00, &[(range(0, 0x10), 5, 1), (end, 6, 2)]);
    based("04 80 02 80 01 00", 4, 0xffffff00, &[(range(0, 0xffffff80), 5, 1), (end, 6, 2)]);
    based("04 f0 01 80 02 00", 4, 0xffffff00, &broken(17, 6, 1));
    // A base that is wider than the size.
    based("04 01 02 00", 1, 0x1ff, &broken(16, 4, 1));
    based("04 01 02 00", 1, 0x100, &broken(16, 4, 1));
    based("07 f0 20 00", 1, 0, &broken(17, 4, 1));
    based("07 f0 0f 00", 1, 0, &[(range(0xf0, 0xff), 3, 1), (end, 4, 2)]);
    based(
        "06 fd ff 06 fe ff 00",
        1,
        0,
        &[(range(0xfd, 0xff), 3, 1), (refused(16, 0), 7, 2), (end, 7, 2)],
    );

    for version in [2, 3, 4] {
        let mut bare = |text: &str, stated: &[_]| {
            let b = bytes(text);
            same(text, &List { version, address_size: 2, ..list(Ranges, &b) }, stated);
        };
        bare("fe ff fe ff 00 00 00 00", &broken(16, 8, 1));
        bare("03 00 01 00 00 00 00 00", &broken(17, 8, 1));
        bare("ff ff fe ff 03 00 05 00 00 00 00 00", &broken(16, 12, 2));
        bare("ff ff fe ff 00 00 00 00", &[(end, 8, 2)]);
        bare("03 00 03 00 80 00 81 00 00 00 00 00", &[(range(0x80, 0x81), 8, 2), (end, 12, 3)]);
    }

    let default = |offset| location(0, u64::MAX, offset, 1);
    for kind in [Locations, SplitLocations] {
        let mut locations = |text: &str, stated: &[_]| {
            let b = bytes(text);
            let l = List { table: &table, table_base: 8, ..list(kind, &b) };
            same(text, &l, stated);
        };
        locations("05 81 00 50 00", &broken(15, 5, 1));
        locations("05 01 50 00", &[(default(2), 3, 1), (end, 4, 2)]);
        locations("06 fe ff ff ff 05 01 50 00", &[(default(7), 8, 2), (end, 9, 3)]);
        locations("06 fe ff ff ff 04 03 05 01 50 00", &broken(16, 11, 2));
        locations("04 01 02 81 00 50 00", &broken(15, 7, 1));
        locations("04 02 01 01 50 00", &broken(17, 6, 1));
        locations("04 01 01 00 05 01 50 00", &[(default(6), 7, 2), (end, 8, 3)]);
        locations("05 81 00", &[(failed, 3, 0), (end, 3, 0)]);
    }
    for version in [2, 3, 4] {
        let mut split = |text: &str, stated: &[_]| {
            let b = bytes(text);
            let l = List { version, table: &table, table_base: 8, ..list(SplitLocations, &b) };
            same(text, &l, stated);
        };
        split("03 00 80 00 00 00 01 00 50 00", &[(location(0x10, 0x90, 8, 1), 9, 1), (end, 10, 2)]);
        split("03 80 00 08 00 00 00 01 00 50 00", &broken(15, 11, 1));
        split("03 00 ff ff ff ff 00 00", &broken(17, 8, 1));
        split("05 01 00 50 00", &[(default(3), 4, 1), (end, 5, 2)]);
    }
}

fn open_points(c: &mut Check) {
    use Kind::*;
    let end = Answer::End;

    let eight = [0x80; 8];
    let b = join(&[&[2], &eight, &[0x20, 0, 0]]);
    let l = List { address_size: 8, ..list(Ranges, &b) };
    c.same("row 1, begin too large", walk(&l, 9), vec![refused(9, 0), end]);
    let b = join(&[&[2, 0], &eight, &[0x20, 0]]);
    let l = List { address_size: 8, ..list(Ranges, &b) };
    c.same("row 1, begin missing", walk(&l, 9), vec![refused(1, 0), end]);

    c.same("row 2", get_address(&[0; 8], false, 8, 8, (1 << 61) - 1), Err(no(1, 0)));

    let b = bytes("01 02 00 00");
    let l = List { version: 4, address_size: 1, ..list(Ranges, &b) };
    let stated = vec![Answer::Entry(entry(Form::BarePair, 1, 2)), Answer::End];
    c.same("row 3", walk_raw(&l, 9), stated);
    let l = List { base_address: 0x10, ..l };
    c.same("row 3, converted", walk(&l, 9), vec![range(0x11, 0x12), end]);

    let mut w = list(Ranges, &[0, 8]);
    for kind in [Ranges, Locations, SplitLocations] {
        w.kind = kind;
        let mut w = Walk::open(&w).unwrap();
        for _ in 0..3 {
            c.same("row 4", (w.next_raw(), w.next()), (Answer::End, Answer::End));
            c.same("row 4, place", w.state().place, 2);
        }
    }

    c.same("row 6", get_address(&[], false, 3, 1, 0), Err(no(1, 0)));
    c.same("row 6, base 0", get_address(&[], false, 3, 0, 0), Err(no(6, 3)));

    let b = bytes("05 00");
    let l = list(Locations, &b);
    c.same("row 7", walk(&l, 9), vec![location(0, u64::MAX, 2, 0), end]);
    let b = bytes("aa aa aa 05 00");
    let l = List { offset: 3, ..list(Locations, &b) };
    c.same("row 7, from the section's start", walk(&l, 9), vec![location(0, u64::MAX, 5, 0), end]);

    let b = bytes(TABLE);
    let mut tables = Tables::open(&b, false);
    let stated = Table {
        offset: 0,
        length: 0xc,
        dwarf64: false,
        version: 5,
        address_size: 4,
        entries: Place { offset: 8, length: 8 },
    };
    let Answer::Entry((table, mut entries)) = tables.next() else { panic!("no table") };
    c.same("row 8", table, stated);
    c.same("row 8, entry", (entries.next(), entries.left()), (Answer::Entry(0x10), 4));
    c.same("row 8, entry", (entries.next(), entries.left()), (Answer::Entry(0x20), 0));
    c.same("row 8, end", entries.next(), Answer::End);
    c.same("row 8, no more tables", tables.next().is(), Answer::End);

    let b = bytes("05 00 00 00 05 00 02 00 aa bb");
    let mut tables = Tables::open(&b, false);
    let Answer::Entry((_, mut entries)) = tables.next() else { panic!("no table") };
    c.same("row 9", (entries.next(), entries.left()), (refused(1, 0), 0));
    c.same("row 9, emptied", entries.next(), Answer::End);

    let l = List { address_size: 1, ..list(Ranges, &[0]) };
    let mut w = Walk::open(&l).unwrap();
    let wide = Yielded { begin: 0x10, end: 0x1000, expression: None };
    let got = w.convert_raw(entry(Form::StartEnd, 0x10, 0x1000));
    c.same("row 10, wide end", got, Converted::Entry(wide));
    c.same("row 10, base", w.convert_raw(entry(Form::Base, 0x1ff, 0)), Converted::Nothing);
    c.same("row 10, wide base", w.convert_raw(entry(Form::OffsetPair, 1, 2)), Converted::Nothing);
    let stated = State { place: 0, base_address: 0x1ff, entries: 0 };
    c.same("row 10, base kept", w.state(), stated);

    for kind in [Ranges, Locations] {
        for version in 2..=6 {
            for dwarf64 in [false, true] {
                let header = if dwarf64 { 20 } else { 12 };
                let stated = if version >= 5 { header } else { 0 };
                c.same("row 12, split", default_base(kind, version, dwarf64, true), stated);
                c.same("row 12, plain", default_base(kind, version, dwarf64, false), 0);
            }
        }
    }

    let table = bytes("00 00 00 10");
    let b = bytes("03 00 08 00");
    let l = List { big_endian: true, table: &table, ..list(Ranges, &b) };
    c.same("row 13", walk(&l, 9), vec![range(0x10, 0x18), end]);

    let l = bytes("05 02 50");
    c.same("row 16", walk(&list(Locations, &l), 9), vec![refused(1, 0), end]);
    let l = join(&[&[5], &[0x80; 9], &[1, 0x50]]);
    c.same("row 16, 2^63", walk(&list(Locations, &l), 9), vec![refused(1, 0), end]);
}

/// What gimli answers where the scope lists a difference.
fn differences(c: &mut Check) {
    use Kind::*;
    let end = Answer::End;
    // Size 5: the port refuses with 6 when the list is opened.
    let b = bytes("04 01 02 06 00 00 00 00 00 00");
    let l = List { address_size: 5, ..list(Ranges, &b) };
    c.same("size 5", walk(&l, 9), vec![range(1, 2), refused(6, 5), end]);
    let l = List { address_size: 5, ..list(Ranges, &[0]) };
    c.same("size 5, lookups", lookups(&l, &[1]), (vec![end], 1));
    // Size 3: the port reads it.
    let b = bytes("06 10 00 00 20 00 00 00");
    let l = List { address_size: 3, ..list(Ranges, &b) };
    c.same("size 3", walk(&l, 9), vec![refused(6, 3), end]);
    let b = bytes("0a 00 00 00 05 00 03 00 10 00 00 20 00 00");
    c.same("table of size 3", Tables::open(&b, false).next().is(), Answer::Refused(THREE));
    // The port refuses with 9.
    let b = bytes("aa ff ff ff ff ff ff ff ff");
    let got = get_offset(Ranges, &b, false, true, 1, 0);
    c.same("get_offset, sum", got, OffsetAnswer::SumTooLarge);
    let b = bytes("aa fe ff ff ff ff ff ff ff");
    let got = get_offset(Ranges, &b, false, true, 1, 0);
    c.same("get_offset, largest sum", got, OffsetAnswer::Offset(u64::MAX));
}

/// An answer without the iterator that comes with a table.
trait Is {
    fn is(self) -> Answer<Table>;
}

impl Is for Answer<(Table, Entries<'_>)> {
    fn is(self) -> Answer<Table> {
        match self {
            Answer::Entry((table, _)) => Answer::Entry(table),
            Answer::End => Answer::End,
            Answer::Refused(refusal) => Answer::Refused(refusal),
        }
    }
}
