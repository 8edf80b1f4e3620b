// Written by tools/to-rust from tests/wasm_custom_tests/src/objects.rtt: change that.
// Tests of the linking sections of object files: bytes by the tool conventions, "Linking".

use dolzhytik::fallible::Vec;
use dolzhytik::fallible::Global;
use crate::host::Abort;
use dolzhytik::fallible::Encode;
use dolzhytik::reader::{Padded, ReadFault, Standard};
use dolzhytik::fallible::{ComdatSymbols, Comdats, InitFunctions, ObjectLinking, ObjectSymbols, SegmentInfos, append_links, read_links};
use dolzhytik::reader::{LinkItem, Symbol};

/// A section with each subsection: its size, its name, version 2, the segments, the init functions,
/// the COMDAT groups, the symbols and the target.
const SECTION: [u8; 47] =
    *b"\x2E\x07linking\x02\x05\x06\x01\x02.d\x02\x00\x06\x03\x01\x07\x03\x07\x07\x01\x01g\x00\x01\x01\x04\x08\x09\x02\x03\x02\x08\x04\x00\x01\x01t\x09\x02\x01w";

/// Writes the section.
fn section(rt: &impl Abort, alloc: Global) -> Vec<u8> {
    let mut segments = SegmentInfos::new(alloc);
    segments.segment(".d", 2, 0).expect("memory");
    let mut functions = InitFunctions::new(alloc);
    functions.function(7, 3).expect("memory");
    let mut members = ComdatSymbols::new(alloc);
    members.symbol(1, 4).expect("memory");
    let mut comdats = Comdats::new(alloc);
    comdats.comdat("g", 0, &members).expect("memory");
    let mut symbols = ObjectSymbols::new(alloc);
    symbols.section(2, 8).expect("memory");
    symbols.tag(0, 1, Some("t")).expect("memory");
    let mut linking = ObjectLinking::new(alloc);
    linking.segments(&segments).expect("memory");
    linking.init_functions(&functions).expect("memory");
    linking.comdats(&comdats).expect("memory");
    linking.symbol_table(&symbols).expect("memory");
    linking.target_arch("w").expect("memory");
    let mut sink = Vec::new(alloc);
    linking.encode(&mut sink).expect("memory");
    sink
}

#[test]
fn encoded() {
    let rt = crate::host::HostRuntime;
    let bytes = section(&rt, rt.alloc());
    assert_eq!(&rt; bytes.as_slice(), SECTION.as_slice());
}

#[test]
fn other_symbols() {
    let rt = crate::host::HostRuntime;
    let alloc = rt.alloc();
    let mut symbols = ObjectSymbols::new(alloc);
    symbols.function(16, 5, None).expect("memory");
    symbols.global(0, 1, Some("g")).expect("memory");
    symbols.table(0, 2, Some("t")).expect("memory");
    symbols.data(16, "d", None).expect("memory");
    let mut linking = ObjectLinking::new(alloc);
    linking.symbol_table(&symbols).expect("memory");
    let mut sink = Vec::new(alloc);
    linking.encode(&mut sink).expect("memory");
    let expected =
        *b"\x1D\x07linking\x02\x08\x12\x04\x00\x10\x05\x02\x00\x01\x01g\x05\x00\x02\x01t\x01\x10\x01d";
    assert_eq!(&rt; sink.as_slice(), expected.as_slice());
}

/// Checks the subsections of the section.
fn check_items(rt: &impl Abort, items: &[LinkItem<'_>]) {
    let is_expected = match items {
        [
            LinkItem::Segments(segments),
            LinkItem::InitFunctions(functions),
            LinkItem::Comdats(comdats),
            LinkItem::Symbols(symbols),
            LinkItem::Arch("w"),
        ] => {
            segments[0].name == ".d"
                && segments[0].alignment == 2
                && functions[0].priority == 7
                && functions[0].symbol == 3
                && comdats[0].name == "g"
                && comdats[0].symbols[0].index == 4
                && matches!(
                    symbols[0],
                    Symbol::Section {
                        flags: 2,
                        section: 8
                    }
                )
                && matches!(
                    symbols[1],
                    Symbol::Tag {
                        index: 1,
                        name: Some("t"),
                        ..
                    }
                )
        }
        _ => false,
    };
    assert!(rt; is_expected);
}

#[test]
fn decoded() {
    let rt = crate::host::HostRuntime;
    let items = read_links::<Global, Standard>(&SECTION[1..], rt.alloc()).expect("read");
    check_items(&rt, &items);
    let mut sink = Vec::new(rt.alloc());
    append_links(&items, &mut sink).expect("memory");
    assert_eq!(&rt; sink.as_slice(), &SECTION[1..]);
    let cause = match read_links::<Global, Padded>(&SECTION[1..], rt.alloc()) {
        Ok(_) => None,
        Err(error) => Some(error.cause()),
    };
    assert_eq!(&rt; cause, Some(ReadFault::UnknownTag));
}
