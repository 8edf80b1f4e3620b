// Written by tools/to-rust from tests/wasm_reader_sections_tests/src/whole.rtt: change that.
// Tests of whole modules: outlines, and minimal encodings.

use dolzhytik::fallible::Vec;
use crate::checks::check_bytes;
use crate::examples::{minimal_body, minimal_payload, one_byte_reference};
use crate::read_back::{shortened_twice, smaller_module};
use dolzhytik::fallible::Global;
use crate::host::Abort;
use crate::test_support::{MOST, Refusing};
use dolzhytik::fallible::Result;
use dolzhytik::reader::{ModuleFault, Offsets, Outlined, ReadFault, Sections, outline, shorten_module};

/// A type section, a function section, bytes that are not a memory section, a code section and a
/// name section, with padded numbers.
const PADDED: &[u8] = b"\0asm\x01\0\0\0\
    \x01\x87\x00\x01\x60\x02\x7F\x7F\x01\x7F\
    \x03\x83\x80\x00\x01\x80\x00\
    \x05\x82\x00\x01\x10\
    \x0A\x8B\x00\x01\x88\x00\x00\x20\x80\x00\x20\x01\x6A\x0B\
    \x00\x0C\x84\x00name\x00\x83\x00\x81\x00m";

/// The same, with no number padded but the size of the memory section that does not decode.
const SHORTEST: &[u8] = b"\0asm\x01\0\0\0\
    \x01\x07\x01\x60\x02\x7F\x7F\x01\x7F\
    \x03\x02\x01\x00\
    \x05\x82\x00\x01\x10\
    \x0A\x09\x01\x07\x00\x20\x00\x20\x01\x6A\x0B\
    \x00\x09\x04name\x00\x02\x01m";

/// A code section after the header: padded, and minimal.
const PADDED_CODE: &[u8] = b"\0asm\x01\0\0\0\x0A\x06\x01\x83\x00\x00\x01\x0B";

const CODE: &[u8] = b"\0asm\x01\0\0\0\x0A\x05\x01\x03\x00\x01\x0B";

/// Custom sections that hold offsets.
static OFFSETS: [&[u8]; 7] = [
    b"\x00\x09\x07linking\x02",
    b"\x00\x11\x10sourceMappingURL",
    b"\x00\x0B\x0Areloc.CODE",
    b"\x00\x0C\x0B.debug_info",
    b"\x00\x1A\x19metadata.code.branch_hint",
    b"\x00\x14\x13external_debug_info",
    b"\x00\x09\x08build_id",
];

/// Modules with a section whose offsets would become wrong, and its number: a source map after code
/// that would move from 0x18 to 0x14; relocations of a section whose name's length is padded, so
/// that its bytes would move by 2; and code of padded size with a section that names a file with
/// offsets into it.
static LOST: [(&[u8], usize); 3] = [
    (
        b"\0asm\x01\0\0\0\x01\x84\x80\x80\x80\x00\x01\x60\x00\x00\x03\x02\x01\x00\
        \x0A\x04\x01\x02\x00\x0B\x00\x13\x10sourceMappingURL\x01u",
        4,
    ),
    (
        b"\0asm\x01\0\0\0\x00\x12\x8B\x80\x00.debug_info\x01\x02\x03\x04\
        \x00\x14\x11reloc..debug_info\x00\x00",
        2,
    ),
    (
        b"\0asm\x01\0\0\0\x0A\x84\x00\x01\x02\x00\x0B\
        \x00\x18\x13external_debug_info\x03a.w",
        2,
    ),
];

/// Modules that are minimized with such sections, and the results: a section after the code; a type
/// section, where each custom section is unchanged; and a type section before unchanged code.
static SAVED: [(&[u8], &[u8]); 3] = [
    (
        b"\0asm\x01\0\0\0\x01\x04\x01\x60\x00\x00\x03\x02\x01\x00\x0A\x04\x01\x02\x00\x0B\
        \x00\x13\x10sourceMappingURL\x01u\x00\x82\x00\x01a",
        b"\0asm\x01\0\0\0\x01\x04\x01\x60\x00\x00\x03\x02\x01\x00\x0A\x04\x01\x02\x00\x0B\
        \x00\x13\x10sourceMappingURL\x01u\x00\x02\x01a",
    ),
    (
        b"\0asm\x01\0\0\0\x01\x84\x00\x01\x60\x00\x00\x00\x10\x0B.debug_info\x01\x02\x03\x04\
        \x00\x14\x11reloc..debug_info\x01\x00",
        b"\0asm\x01\0\0\0\x01\x04\x01\x60\x00\x00\x00\x10\x0B.debug_info\x01\x02\x03\x04\
        \x00\x14\x11reloc..debug_info\x01\x00",
    ),
    (
        b"\0asm\x01\0\0\0\x01\x84\x00\x01\x60\x00\x00\x03\x02\x01\x00\x0A\x04\x01\x02\x00\x0B\
        \x00\x18\x13external_debug_info\x03a.w",
        b"\0asm\x01\0\0\0\x01\x04\x01\x60\x00\x00\x03\x02\x01\x00\x0A\x04\x01\x02\x00\x0B\
        \x00\x18\x13external_debug_info\x03a.w",
    ),
];

/// Sections after the header that only the standard's grammar has, and their minimal encodings: a
/// parameter `anyref` of two bytes, an empty list of supertypes, an imported table and global, a
/// table with a value, a global, an element segment, a memory argument and a data segment with
/// memory 0, and the data segments of a linking section.
static STANDARD: [(&[u8], &[u8]); 10] = [
    (
        b"\x01\x06\x01\x60\x01\x63\x6E\x00",
        b"\x01\x05\x01\x60\x01\x6E\x00",
    ),
    (
        b"\x01\x06\x01\x4F\x00\x60\x00\x00",
        b"\x01\x04\x01\x60\x00\x00",
    ),
    (
        b"\x02\x0A\x01\x01m\x01t\x01\x63\x6E\x00\x00",
        b"\x02\x09\x01\x01m\x01t\x01\x6E\x00\x00",
    ),
    (
        b"\x02\x09\x01\x01m\x01g\x03\x63\x6E\x00",
        b"\x02\x08\x01\x01m\x01g\x03\x6E\x00",
    ),
    (
        b"\x04\x0A\x01\x40\x00\x63\x6E\x00\x00\xD0\x6E\x0B",
        b"\x04\x09\x01\x40\x00\x6E\x00\x00\xD0\x6E\x0B",
    ),
    (
        b"\x06\x07\x01\x63\x71\x00\xD0\x71\x0B",
        b"\x06\x06\x01\x71\x00\xD0\x71\x0B",
    ),
    (b"\x09\x05\x01\x05\x63\x6E\x00", b"\x09\x04\x01\x05\x6E\x00"),
    (
        b"\x0A\x0B\x01\x09\x00\x41\x00\x28\x42\x00\x04\x1A\x0B",
        b"\x0A\x0A\x01\x08\x00\x41\x00\x28\x02\x04\x1A\x0B",
    ),
    (
        b"\x0B\x08\x01\x02\x00\x41\x00\x0B\x01a",
        b"\x0B\x07\x01\x00\x41\x00\x0B\x01a",
    ),
    (
        b"\x00\x11\x07linking\x82\x00\x05\x05\x01\x01a\x00\x00",
        b"\x00\x10\x07linking\x02\x05\x05\x01\x01a\x00\x00",
    ),
];

/// The byte in a sink before a call.
const BEFORE: u8 = 0xAA;

fn both(alloc: Global, front: &[u8], back: &[u8]) -> Result<Vec<u8>> {
    let mut bytes = Vec::new(alloc);
    bytes.extend_from_slice(front)?;
    bytes.extend_from_slice(back)?;
    Ok(bytes)
}

/// The result of a call, and whether the sink gained exactly the expected bytes.
type Outcome = (Result<usize, ModuleFault>, bool);

/// Makes the call, with the request of this number failing.
fn outcome(
    heap: &Refusing<Global>,
    nth: u64,
    bytes: &[u8],
    offsets: Offsets,
    text: &[u8],
) -> Result<Outcome> {
    heap.refuse(0);
    let mut sink = Vec::new(heap);
    sink.push(BEFORE)?;
    heap.refuse(nth);
    let answer = shorten_module(heap, bytes, offsets, &mut sink);
    let (before, after) = sink.split_at(1);
    let gained = match answer {
        Ok(_) => text,
        Err(_) => &[] as &[u8],
    };
    Ok((answer, before == [BEFORE].as_slice() && after == gained))
}

fn check(rt: &impl Abort, given: Outcome, expected: Result<usize, ModuleFault>) {
    assert_eq!(rt; given, (expected, true));
}

/// Checks the appended bytes and the number of kept sections. If a request for memory fails, the
/// sink is unchanged.
fn check_shortened(
    rt: &impl Abort,
    heap: &Refusing<Global>,
    bytes: &[u8],
    offsets: Offsets,
    text: &[u8],
    kept: usize,
) {
    for nth in 1..MOST {
        let (answer, is_right) = outcome(heap, nth, bytes, offsets, text).expect("accepted");
        assert!(rt; is_right, "the sink");
        if heap.is_waiting() {
            assert_eq!(rt; answer, Ok(kept));
            return;
        }
        assert!(rt;
            is_want_of_memory(&answer),
            "another answer than want of memory"
        );
    }
    panic!(rt; "no call was granted")
}

fn is_want_of_memory(answer: &Result<usize, ModuleFault>) -> bool {
    matches!(
        answer,
        Err(ModuleFault::Section {
            fault: ReadFault::Memory,
            ..
        })
    )
}

#[test]
fn modules() {
    let rt = crate::host::HostRuntime;
    let heap = Refusing::new(rt.alloc());
    for offsets in [Offsets::Refuse, Offsets::LeaveOut] {
        check_shortened(&rt, &heap, PADDED, offsets, SHORTEST, 1);
        check_shortened(&rt, &heap, SHORTEST, offsets, SHORTEST, 1);
        check_shortened(&rt, &heap, &CODE[..8], offsets, &CODE[..8], 0);
    }
}

/// Checks the minimal payload of the first section. If a request for memory fails, the sink is
/// empty.
fn check_payload(rt: &impl Abort, heap: &Refusing<Global>, module: &[u8], payload: &[u8]) {
    for nth in 1..MOST {
        heap.refuse(0);
        let mut sections = Sections::new(heap, module).expect("a module");
        let section = sections
            .next()
            .expect("a section")
            .expect("accepted");
        let mut sink = Vec::new(heap);
        heap.refuse(nth);
        let answer = minimal_payload(&section, &mut sink);
        if heap.is_waiting() {
            assert!(rt; answer.is_ok(), "a payload");
            check_bytes(rt, &sink, payload);
            return;
        }
        assert!(rt;
            matches!(answer, Err(error) if error.cause == ReadFault::Memory),
            "another answer than want of memory"
        );
        check_bytes(rt, &sink, b"");
    }
    panic!(rt; "no call was granted")
}

/// Modules are minimized in the standard's grammar.
#[test]
fn modules_of_the_standard() {
    let rt = crate::host::HostRuntime;
    let heap = Refusing::new(rt.alloc());
    for (padded, minimal) in STANDARD {
        let module = both(rt.alloc(), &CODE[..8], padded).expect("accepted");
        let shortest = both(rt.alloc(), &CODE[..8], minimal).expect("accepted");
        check_shortened(&rt, &heap, &module, Offsets::Refuse, &shortest, 0);
        check_shortened(&rt, &heap, &shortest, Offsets::Refuse, &shortest, 0);
        check_payload(&rt, &heap, &module, &minimal[2..]);
    }
}

/// The callers that prove facts about minimized values.
#[test]
fn smaller_values() {
    let rt = crate::host::HostRuntime;
    for bytes in [b"\x63\x6E\x2A".as_slice(), b"\x6E\x2A"] {
        let mut sink = Vec::new(rt.alloc());
        assert!(rt;
            one_byte_reference(rt.alloc(), bytes, &mut sink).is_ok(),
            "a type"
        );
        check_bytes(&rt, &sink, b"\x6E");
    }
    let mut sink = Vec::new(rt.alloc());
    assert!(rt;
        one_byte_reference(rt.alloc(), b"\x7F", &mut sink).is_err(),
        "no reference"
    );
    let padded = b"\x80\x00\x20\x81\x00\x0B";
    assert!(rt;
        minimal_body(rt.alloc(), padded, &mut sink).is_ok(),
        "a body"
    );
    check_bytes(&rt, &sink, b"\x04\x00\x20\x01\x0B");
    assert!(rt;
        minimal_body(rt.alloc(), b"\x00\x20", &mut sink).is_err(),
        "no body"
    );
    check_bytes(&rt, &sink, b"\x04\x00\x20\x01\x0B");
}

/// The callers that prove facts about minimized modules.
#[test]
fn smaller_modules() {
    let rt = crate::host::HostRuntime;
    let mut once = Vec::new(rt.alloc());
    assert_eq!(rt; smaller_module(rt.alloc(), PADDED, &mut once), Ok(1));
    check_bytes(&rt, &once, SHORTEST);
    let mut first = Vec::new(rt.alloc());
    let mut second = Vec::new(rt.alloc());
    assert_eq!(rt;
        shortened_twice(rt.alloc(), PADDED, &mut first, &mut second),
        Ok(1)
    );
    check_bytes(&rt, &second, SHORTEST);
}

#[test]
fn offsets() {
    let rt = crate::host::HostRuntime;
    let heap = Refusing::new(rt.alloc());
    for section in OFFSETS {
        let moved = both(rt.alloc(), PADDED_CODE, section).expect("accepted");
        let given = outcome(&heap, 0, &moved, Offsets::Refuse, &[]).expect("accepted");
        check(&rt, given, Err(ModuleFault::Offsets { number: 2 }));
        check_shortened(&rt, &heap, &moved, Offsets::LeaveOut, CODE, 0);
        let unmoved = both(rt.alloc(), CODE, section).expect("accepted");
        let given = outcome(&heap, 0, &unmoved, Offsets::Refuse, &unmoved).expect("accepted");
        assert!(rt; given.0.is_ok() && given.1, "offsets into code that stays");
    }
}

#[test]
fn offsets_that_are_lost_and_kept() {
    let rt = crate::host::HostRuntime;
    let heap = Refusing::new(rt.alloc());
    for (bytes, number) in LOST {
        let given = outcome(&heap, 0, bytes, Offsets::Refuse, &[]).expect("accepted");
        check(&rt, given, Err(ModuleFault::Offsets { number }));
    }
    for (bytes, text) in SAVED {
        check_shortened(&rt, &heap, bytes, Offsets::Refuse, text, 0);
        check_shortened(&rt, &heap, text, Offsets::Refuse, text, 0);
    }
}

/// Bytes that are not a module are not minimized, and have no outline.
#[test]
fn none() {
    let rt = crate::host::HostRuntime;
    let heap = Refusing::new(rt.alloc());
    for (bytes, number, fault) in [
        (&CODE[..7], 0, ReadFault::Ended),
        (b"\0asm\x02\0\0\0" as &[u8], 0, ReadFault::UnknownTag),
        (&CODE[..9], 1, ReadFault::Ended),
        (
            b"\0asm\x01\0\0\0\x01\x00\x02\x05" as &[u8],
            2,
            ReadFault::Ended,
        ),
    ] {
        let given = outcome(&heap, 0, bytes, Offsets::Refuse, &[]).expect("accepted");
        check(&rt, given, Err(ModuleFault::Section { number, fault }));
        heap.refuse(0);
        assert_eq!(rt; outline(&heap, bytes).err(), Some((number, fault)));
    }
}

/// The id, offset, size, number of items and name of a section.
type Line = (u8, usize, u32, Option<u32>, Option<&'static str>);

static LINES: [Line; 5] = [
    (1, 11, 7, Some(1), None),
    (3, 22, 3, Some(1), None),
    (5, 28, 2, None, None),
    (10, 33, 11, Some(1), None),
    (0, 46, 12, None, Some("name")),
];

fn check_line(rt: &impl Abort, given: &Outlined<'_>, expected: &Line) {
    let line = (given.id, given.offset, given.size, given.items, given.name);
    assert_eq!(rt; line, *expected);
}

/// A type section of one entry: a recursion group of two types.
const GROUP: &[u8] = b"\0asm\x01\0\0\0\x01\x07\x01\x4E\x02\x5F\x00\x5F\x00";

#[test]
fn a_recursion_group_is_one_entry() {
    let rt = crate::host::HostRuntime;
    let lines = outline(rt.alloc(), GROUP).expect("accepted");
    assert_eq!(rt; lines.len(), 1);
    check_line(&rt, &lines[0], &(1, 10, 7, Some(1), None));
}

#[test]
fn outlines() {
    let rt = crate::host::HostRuntime;
    let heap = Refusing::new(rt.alloc());
    for nth in 1..MOST {
        heap.refuse(nth);
        let given = outline(&heap, PADDED);
        if heap.is_waiting() {
            let lines = given.expect("accepted");
            assert_eq!(rt; lines.len(), LINES.len());
            for (line, expected) in lines.iter().zip(LINES.iter()) {
                check_line(&rt, line, expected);
            }
            return;
        }
        assert!(rt;
            matches!(given, Err((_, ReadFault::Memory))),
            "another answer than want of memory"
        );
    }
    panic!(rt; "no call was granted")
}
