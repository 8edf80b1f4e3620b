// Written by tools/to-rust from tests/wasm_reader_sections_tests/src/modules.rtt: change that.
// Tests of the listings of modules.

use dolzhytik::fallible::Vec;
use dolzhytik::fallible::Global;
use crate::host::Abort;
use dolzhytik::reader::ReadFault;
use dolzhytik::fallible::Result;
use dolzhytik::reader::{Listed, list_module};

/// Returns the magic and version, and the bytes after them.
fn module(alloc: Global, sections: &[u8]) -> Result<Vec<u8>> {
    let mut bytes = Vec::new(alloc);
    bytes.extend_from_slice(b"\0asm\x01\0\0\0")?;
    bytes.extend_from_slice(sections)?;
    Ok(bytes)
}

/// Checks the lines.
fn check_lines(rt: &impl Abort, given: &[Listed], expected: &[(u8, u32, Option<u32>)]) {
    assert_eq!(rt; given.len(), expected.len());
    for (line, (id, size, items)) in given.iter().zip(expected) {
        assert_eq!(rt; (line.id, line.size, line.items), (*id, *size, *items));
    }
}

/// Checks that the module of these sections has these lines.
fn check(rt: &impl Abort, alloc: Global, sections: &[u8], expected: &[(u8, u32, Option<u32>)]) {
    let bytes = module(alloc, sections).expect("accepted");
    match list_module(alloc, &bytes) {
        Ok(lines) => check_lines(rt, &lines, expected),
        Err(_) => panic!(rt; "no module"),
    }
}

/// Checks the section at which the bytes stop being a module, and the error.
fn check_stop(rt: &impl Abort, alloc: Global, bytes: &[u8], expected: (usize, ReadFault)) {
    let stop = match list_module(alloc, bytes) {
        Ok(_) => None,
        Err(stop) => Some(stop),
    };
    assert_eq!(rt; stop, Some(expected));
}

#[test]
fn modules() {
    let rt = crate::host::HostRuntime;
    let alloc = rt.alloc();
    check(&rt, alloc, &[], &[]);
    check(&rt, alloc, &[3, 0x83, 0, 1, 0x80, 0], &[(3, 3, Some(1))]);
    let sections = [
        1, 7, 1, 0x60, 2, 0x7F, 0x7F, 1, 0x7F, 3, 2, 1, 0, 7, 5, 1, 1, 0x66, 0, 0, 10, 9, 1, 7, 0,
        0x20, 0, 0x20, 1, 0x6A, 0x0B,
    ];
    check(
        &rt,
        alloc,
        &sections,
        &[
            (1, 7, None),
            (3, 2, Some(1)),
            (7, 5, Some(1)),
            (10, 9, Some(1)),
        ],
    );
    let others = [
        0, 2, 1, 97, 2, 1, 0, 4, 1, 0, 5, 1, 0, 6, 1, 0, 8, 1, 7, 9, 1, 0, 11, 1, 0, 12, 1, 2, 13,
        1, 0, 14, 0,
    ];
    let none = Some(0);
    let lines = [
        (0, 2, None),
        (2, 1, none),
        (4, 1, none),
        (5, 1, none),
        (6, 1, none),
        (8, 1, Some(1)),
        (9, 1, none),
        (11, 1, none),
        (12, 1, Some(1)),
        (13, 1, none),
        (14, 0, None),
    ];
    check(&rt, alloc, &others, &lines)
}

/// A section of one line, and the number of its items.
static COUNTED: [(&[u8], u32); 15] = [
    // Code: a `br_table`, catches, handles, types of a selection, and runs.
    (&[10, 9, 1, 7, 0, 14, 2, 11, 11, 0, 11], 1),
    (
        &[10, 14, 1, 12, 0, 31, 64, 2, 0, 11, 11, 3, 11, 11, 11, 11],
        1,
    ),
    (&[10, 12, 1, 10, 0, 227, 4, 2, 0, 11, 11, 1, 11, 11], 1),
    (
        &[
            10, 16, 2, 8, 2, 1, 127, 2, 124, 1, 1, 11, 5, 0, 28, 1, 127, 11,
        ],
        2,
    ),
    // Elements, by their flags.
    (&[9, 8, 1, 0, 65, 0, 11, 2, 11, 11], 1),
    (&[9, 5, 1, 1, 0, 1, 11], 1),
    (&[9, 10, 1, 2, 1, 65, 0, 11, 0, 2, 11, 11], 1),
    (&[9, 5, 1, 3, 0, 1, 11], 1),
    (&[9, 12, 1, 4, 65, 0, 11, 2, 210, 11, 11, 208, 112, 11], 1),
    (&[9, 7, 1, 5, 112, 1, 210, 11, 11], 1),
    (&[9, 12, 1, 6, 1, 65, 0, 11, 99, 110, 1, 210, 11, 11], 1),
    (&[9, 10, 2, 7, 112, 0, 7, 111, 1, 208, 111, 11], 2),
    // Others that hold expressions or lists.
    (&[6, 11, 2, 127, 0, 65, 11, 11, 111, 1, 208, 111, 11], 2),
    (&[4, 12, 2, 112, 0, 11, 64, 0, 112, 0, 11, 208, 112, 11], 2),
    (
        &[11, 15, 3, 0, 65, 11, 11, 1, 11, 1, 0, 2, 1, 65, 11, 11, 0],
        3,
    ),
];

#[test]
fn counted() {
    let rt = crate::host::HostRuntime;
    let alloc = rt.alloc();
    for (section, items) in COUNTED.iter() {
        let size = section.len().saturating_sub(2) as u32;
        check(&rt, alloc, section, &[(section[0], size, Some(*items))]);
    }
    let imports = [
        2, 26, 3, 1, 109, 1, 102, 0, 11, 1, 109, 0, 127, 2, 1, 97, 0, 11, 0, 0, 11, 1, 109, 0, 126,
        0, 11, 0,
    ];
    check(&rt, alloc, &imports, &[(2, 26, Some(3))]);
}

/// A section that does not hold items of its kind, and the error.
static UNCOUNTED: [(&[u8], ReadFault); 12] = [
    (&[10, 7, 1, 5, 0, 14, 3, 11, 11], ReadFault::Ended),
    (
        &[10, 9, 1, 7, 0, 31, 64, 1, 4, 0, 11],
        ReadFault::UnknownTag,
    ),
    (&[10, 4, 1, 2, 1, 127], ReadFault::Ended),
    (&[9, 5, 1, 1, 1, 1, 11], ReadFault::UnknownTag),
    (&[9, 4, 1, 8, 0, 0], ReadFault::UnknownTag),
    (&[9, 6, 1, 0, 65, 0, 11, 1], ReadFault::Ended),
    (&[9, 6, 1, 5, 112, 1, 210, 11], ReadFault::Ended),
    (&[9, 4, 1, 5, 65, 0], ReadFault::UnknownTag),
    (&[6, 4, 1, 127, 4, 11], ReadFault::UnknownTag),
    (&[4, 3, 1, 64, 1], ReadFault::UnknownTag),
    (&[11, 6, 1, 2, 0, 11, 0, 0], ReadFault::UnknownTag),
    (&[2, 6, 1, 1, 109, 0, 127, 1], ReadFault::Ended),
];

#[test]
fn uncounted() {
    let rt = crate::host::HostRuntime;
    let alloc = rt.alloc();
    for (section, fault) in UNCOUNTED.iter() {
        let bytes = module(alloc, section).expect("accepted");
        check_stop(&rt, alloc, &bytes, (1, *fault));
    }
}

#[test]
fn stops() {
    let rt = crate::host::HostRuntime;
    let alloc = rt.alloc();
    check_stop(&rt, alloc, &[0x00, 0x61], (0, ReadFault::Ended));
    check_stop(&rt, alloc, b"\0asm\x02\0\0\0", (0, ReadFault::UnknownTag));
    let body = module(alloc, &[10, 6, 1, 4, 0, 40, 16, 0]).expect("accepted");
    check_stop(&rt, alloc, &body, (1, ReadFault::Ended));
    let second = module(alloc, &[3, 1, 0, 0, 1, 5]).expect("accepted");
    check_stop(&rt, alloc, &second, (2, ReadFault::Ended));
}
