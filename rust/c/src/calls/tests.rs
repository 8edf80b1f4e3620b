// Written by tools/to-rust from crates/wasm_c/src/tests.rt: change that.
// Tests of each call, with an output that is ample, too short and empty.

use crate::calls::NO_ANSWER;
use crate::calls::causes::{dz_cause, dz_recipe_cause};
use crate::calls::indices::{dz_insert_import, dz_remap_module};
use crate::calls::listing::{DzSection, dz_list, number_of as fault_number};
use crate::calls::minimal::dz_shorten;
use crate::calls::outlining::{DzOutlined, dz_outline};
use crate::calls::recipes::{dz_assemble, dz_assemble_versioned, number_of as cause_number};
use crate::calls::whole::dz_shorten_module;
use dolzhytik::fallible::Global;
use crate::host::Abort;
use dolzhytik::reader::ReadFault;
use dolzhytik::fallible::recipe::RecipeCause;

/// The module of a recipe of one body.
const MODULE: &[u8] = b"\0asm\x01\0\0\0\x0A\x04\x01\x02\0\x0B";

/// Checks the result of a recipe: the length, the line and the cause, and the content of `room`
/// afterwards.
fn check_recipe(
    rt: &impl Abort,
    alloc: Global,
    recipe: &[u8],
    room: &mut [u8],
    expected: (u64, u64, u32),
    left: &[u8],
) {
    let mut line = 7;
    let mut cause = 7;
    let answer = dz_assemble(alloc, recipe, room, &mut line, &mut cause);
    assert_eq!(rt; (answer, line, cause), expected);
    assert_eq!(rt; &*room, left);
}

#[test]
fn recipes() {
    let rt = crate::host::HostRuntime;
    let alloc = rt.alloc();
    check_recipe(&rt, alloc, b"body 0b", &mut [0; 14], (14, 0, 0), MODULE);
    check_recipe(&rt, alloc, b"body 0b", &mut [9; 3], (14, 0, 0), &[9; 3]);
    check_recipe(&rt, alloc, b"", &mut [], (8, 0, 0), &[]);
    check_recipe(&rt, alloc, b"\nbody 0", &mut [9], (NO_ANSWER, 2, 3), &[9]);
    check_recipe(&rt, alloc, &[0xFF], &mut [9], (NO_ANSWER, 0, 7), &[9]);
}

/// Checks the result of a recipe of version 1 or 2, and the content of `room` afterwards.
fn check_versioned(
    rt: &impl Abort,
    alloc: Global,
    recipe: &[u8],
    room: &mut [u8],
    expected: (u64, u64, u32),
    left: &[u8],
) {
    let mut line = 7;
    let mut cause = 7;
    let answer = dz_assemble_versioned(alloc, recipe, room, &mut line, &mut cause);
    assert_eq!(rt; (answer, line, cause), expected);
    assert_eq!(rt; &*room, left);
}

#[test]
fn versions() {
    let rt = crate::host::HostRuntime;
    let alloc = rt.alloc();
    let second = b"version 2\nbody 0b # end";
    check_versioned(&rt, alloc, second, &mut [0; 14], (14, 0, 0), MODULE);
    check_versioned(&rt, alloc, second, &mut [9; 3], (14, 0, 0), &[9; 3]);
    check_versioned(&rt, alloc, b"body 0b 0", &mut [0; 14], (14, 0, 0), MODULE);
    let surplus = b"version 2\nbody 0b 0";
    check_versioned(&rt, alloc, surplus, &mut [9], (NO_ANSWER, 2, 8), &[9]);
    let unknown = b"version 2\nlocals 1 a";
    check_versioned(&rt, alloc, unknown, &mut [9], (NO_ANSWER, 2, 9), &[9]);
    let unused = b"version 2\nlocals 1 i32";
    check_versioned(&rt, alloc, unused, &mut [9], (NO_ANSWER, 0, 10), &[9]);
    check_versioned(&rt, alloc, &[0xFF], &mut [9], (NO_ANSWER, 0, 7), &[9]);
    check_recipe(&rt, alloc, second, &mut [9], (NO_ANSWER, 1, 1), &[9]);
}

/// Checks the result of a module's listing: the number of sections, the section number and the
/// cause.
fn check_list(
    rt: &impl Abort,
    alloc: Global,
    bytes: &[u8],
    room: &mut [DzSection],
    expected: (u64, u64, u32),
) {
    let mut place = 7;
    let mut cause = 7;
    let answer = dz_list(alloc, bytes, room, &mut place, &mut cause);
    assert_eq!(rt; (answer, place, cause), expected);
}

/// Checks a listed section.
fn check_section(rt: &impl Abort, section: DzSection, expected: (u32, u32, u64)) {
    assert_eq!(rt; (section.id, section.size, section.items), expected);
}

/// A section that no module has.
const NONE: DzSection = DzSection {
    items: 7,
    size: 7,
    id: 77,
};

#[test]
fn lists() {
    let rt = crate::host::HostRuntime;
    let alloc = rt.alloc();
    let mut room = [NONE; 2];
    check_list(&rt, alloc, MODULE, &mut room, (1, 0, 0));
    check_section(&rt, room[0], (10, 4, 1));
    check_section(&rt, room[1], (77, 7, 7));
    let mut room = [NONE];
    check_list(&rt, alloc, &MODULE[..8], &mut room, (0, 0, 0));
    check_list(&rt, alloc, &MODULE[..9], &mut room, (NO_ANSWER, 1, 1));
    check_list(&rt, alloc, &[], &mut room, (NO_ANSWER, 0, 1));
    check_list(&rt, alloc, b"\0asm\x02\0\0\0", &mut room, (NO_ANSWER, 0, 4));
    check_section(&rt, room[0], (77, 7, 7));
    check_list(&rt, alloc, MODULE, &mut [], (1, 0, 0));
}

/// Checks the result for a section of a kind: the length of its minimal encoding, its length in the
/// input, the cause, and the content of `room` afterwards.
fn check_text(
    rt: &impl Abort,
    alloc: Global,
    kind: u32,
    bytes: &[u8],
    room: &mut [u8],
    expected: (u64, u64, u32),
    left: &[u8],
) {
    let mut taken = 7;
    let mut cause = 7;
    let answer = dz_shorten(alloc, kind, bytes, room, &mut taken, &mut cause);
    assert_eq!(rt; (answer, taken, cause), expected);
    assert_eq!(rt; &*room, left);
}

#[test]
fn minimal_encodings() {
    let rt = crate::host::HostRuntime;
    let alloc = rt.alloc();
    let padded: &[u8] = &[0x86, 0x00, 0x01, 0x85, 0x80, 0x80, 0x80, 0x00, 0x99];
    check_text(&rt, alloc, 5, padded, &mut [9; 4], (3, 8, 0), &[2, 1, 5, 9]);
    check_text(&rt, alloc, 5, padded, &mut [9; 2], (3, 8, 0), &[9; 2]);
    check_text(
        &rt,
        alloc,
        21,
        padded,
        &mut [9; 8],
        (7, 8, 0),
        &[6, 1, 0x85, 0x80, 0x80, 0x80, 0, 9],
    );
    check_text(
        &rt,
        alloc,
        22,
        &[5, 1, 0x60, 0, 0x80, 0],
        &mut [9; 6],
        (5, 6, 0),
        &[4, 1, 0x60, 0, 0, 9],
    );
}

/// Bytes that end too early, bytes of another kind, a number that no kind has, and no bytes.
#[test]
fn no_section_decodes() {
    let rt = crate::host::HostRuntime;
    let alloc = rt.alloc();
    let padded: &[u8] = &[0x86, 0x00, 0x01, 0x85, 0x80, 0x80, 0x80, 0x00, 0x99];
    check_text(
        &rt,
        alloc,
        5,
        &padded[..7],
        &mut [9; 3],
        (NO_ANSWER, 0, 1),
        &[9; 3],
    );
    check_text(
        &rt,
        alloc,
        11,
        &[3, 1, 1, 0],
        &mut [9; 3],
        (NO_ANSWER, 0, 4),
        &[9; 3],
    );
    check_text(
        &rt,
        alloc,
        u32::MAX,
        padded,
        &mut [9; 3],
        (NO_ANSWER, 0, 9),
        &[9; 3],
    );
    check_text(&rt, alloc, 5, &[], &mut [], (NO_ANSWER, 0, 1), &[]);
}

/// Checks the result of an outline: the number of sections, the section number and the cause.
fn check_outline(
    rt: &impl Abort,
    alloc: Global,
    bytes: &[u8],
    room: &mut [DzOutlined],
    expected: (u64, u64, u32),
) {
    let mut place = 7;
    let mut cause = 7;
    let answer = dz_outline(alloc, bytes, room, &mut place, &mut cause);
    assert_eq!(rt; (answer, place, cause), expected);
}

/// Checks an outlined section: its id, offset, size and items, and the offset and length of its
/// name.
fn check_outlined(
    rt: &impl Abort,
    section: DzOutlined,
    expected: (u32, u64, u32, u64),
    name: (u64, u64),
) {
    assert_eq!(rt;
        (section.id, section.offset, section.size, section.items),
        expected
    );
    assert_eq!(rt; (section.name_offset, section.name_size), name);
}

/// A section that no outline has.
const NOT_OUTLINED: DzOutlined = DzOutlined {
    items: 7,
    offset: 7,
    name_offset: 7,
    name_size: 7,
    size: 7,
    id: 77,
};

/// A type, a custom section called `name` of padded LEB128, one without a name, one that counts
/// seven functions and holds none, and one of a function.
const OUTLINED: &[u8] =
    b"\0asm\x01\0\0\0\x01\x04\x01\x60\0\0\0\x87\0\x84\0name\xFF\0\x01\x05\x03\x01\x07\x03\x02\x01\0";

#[test]
fn outlines() {
    let rt = crate::host::HostRuntime;
    let alloc = rt.alloc();
    let mut room = [NOT_OUTLINED; 6];
    let none = (NO_ANSWER, NO_ANSWER);
    check_outline(&rt, alloc, OUTLINED, &mut room, (5, 0, 0));
    check_outlined(&rt, room[0], (1, 10, 4, 1), none);
    check_outlined(&rt, room[1], (0, 17, 7, NO_ANSWER), (19, 4));
    check_outlined(&rt, room[2], (0, 26, 1, NO_ANSWER), none);
    check_outlined(&rt, room[3], (3, 29, 1, NO_ANSWER), none);
    check_outlined(&rt, room[4], (3, 32, 2, 1), none);
    check_outlined(&rt, room[5], (77, 7, 7, 7), (7, 7));
}

/// An output that is too short, an empty one, and bytes that are not a module.
#[test]
fn no_outlines() {
    let rt = crate::host::HostRuntime;
    let alloc = rt.alloc();
    let mut room = [NOT_OUTLINED];
    check_outline(&rt, alloc, OUTLINED, &mut room, (5, 0, 0));
    check_outline(&rt, alloc, OUTLINED, &mut [], (5, 0, 0));
    check_outline(&rt, alloc, &MODULE[..8], &mut room, (0, 0, 0));
    check_outline(&rt, alloc, &MODULE[..9], &mut room, (NO_ANSWER, 1, 1));
    check_outline(&rt, alloc, &[], &mut room, (NO_ANSWER, 0, 1));
    check_outlined(&rt, room[0], (77, 7, 7, 7), (7, 7));
}

/// Checks the result for a whole module: the length of its minimal encoding, the number of kept
/// sections, the section number and the cause, and the content of `room` afterwards.
fn check_whole(
    rt: &impl Abort,
    alloc: Global,
    bytes: &[u8],
    drop_offsets: u32,
    room: &mut [u8],
    expected: (u64, u64, u64, u32),
    left: &[u8],
) {
    let mut kept = 7;
    let mut place = 7;
    let mut cause = 7;
    let answer = dz_shorten_module(
        alloc,
        bytes,
        drop_offsets,
        room,
        &mut kept,
        &mut place,
        &mut cause,
    );
    assert_eq!(rt; (answer, kept, place, cause), expected);
    assert_eq!(rt; &*room, left);
}

/// A padded section of functions, and one that counts seven functions and holds none.
const PADDED: &[u8] = b"\0asm\x01\0\0\0\x03\x86\0\x01\x85\x80\x80\x80\0\x03\x01\x07";

/// A padded code section, and symbols, which hold offsets into it.
const SYMBOLS: &[u8] = b"\0asm\x01\0\0\0\x0A\x84\0\x01\x02\0\x0B\0\x08\x07linking";

#[test]
fn minimal_modules() {
    let rt = crate::host::HostRuntime;
    let alloc = rt.alloc();
    let short = b"\0asm\x01\0\0\0\x03\x02\x01\x05\x03\x01\x07\x09";
    check_whole(&rt, alloc, PADDED, 0, &mut [9; 16], (15, 1, 0, 0), short);
    check_whole(&rt, alloc, PADDED, 1, &mut [9; 3], (15, 1, 0, 0), &[9; 3]);
    check_whole(&rt, alloc, PADDED, 0, &mut [], (15, 1, 0, 0), &[]);
    check_whole(&rt, alloc, SYMBOLS, 1, &mut [9; 14], (14, 0, 0, 0), MODULE);
}

/// A section whose offsets would become wrong, and bytes that are not a module.
#[test]
fn modules_that_are_refused() {
    let rt = crate::host::HostRuntime;
    let alloc = rt.alloc();
    check_whole(
        &rt,
        alloc,
        SYMBOLS,
        0,
        &mut [9; 2],
        (NO_ANSWER, 0, 2, 10),
        &[9; 2],
    );
    check_whole(
        &rt,
        alloc,
        &MODULE[..9],
        0,
        &mut [9; 2],
        (NO_ANSWER, 0, 1, 1),
        &[9; 2],
    );
    check_whole(&rt, alloc, &[], 1, &mut [], (NO_ANSWER, 0, 0, 1), &[]);
}

/// A module of a function that calls itself.
const CALLS: &[u8] =
    b"\0asm\x01\0\0\0\x01\x04\x01\x60\0\0\x03\x02\x01\0\x0A\x06\x01\x04\0\x10\0\x0B";

/// The same where it is function 7.
const SEVENTH: &[u8] =
    b"\0asm\x01\0\0\0\x01\x04\x01\x60\0\0\x03\x02\x01\0\x0A\x06\x01\x04\0\x10\x07\x0B";

/// Checks the result of a map of the indices of one space, and the content of `room` afterwards.
fn check_remapped(
    rt: &impl Abort,
    alloc: Global,
    bytes: &[u8],
    (space, indices): (u32, &[u32]),
    room: &mut [u8],
    expected: (u64, u64, u32),
    left: &[u8],
) {
    let mut offset = 7;
    let mut cause = 7;
    let answer = dz_remap_module(
        alloc,
        bytes,
        space,
        indices,
        0,
        room,
        &mut offset,
        &mut cause,
    );
    assert_eq!(rt; (answer, offset, cause), expected);
    assert_eq!(rt; &*room, left);
}

#[test]
fn mapped_modules() {
    let rt = crate::host::HostRuntime;
    let alloc = rt.alloc();
    let seven: (u32, &[u32]) = (0, &[7]);
    check_remapped(&rt, alloc, CALLS, seven, &mut [9; 26], (26, 0, 0), SEVENTH);
    check_remapped(&rt, alloc, CALLS, seven, &mut [9; 3], (26, 0, 0), &[9; 3]);
    check_remapped(&rt, alloc, CALLS, (2, &[]), &mut [9; 26], (26, 0, 0), CALLS);
    let none = (NO_ANSWER, 0, 11);
    check_remapped(&rt, alloc, CALLS, (0, &[]), &mut [9], none, &[9]);
    let removed: (u32, &[u32]) = (0, &[4294967295]);
    check_remapped(&rt, alloc, CALLS, removed, &mut [9], none, &[9]);
    let no_space = (NO_ANSWER, 0, 9);
    check_remapped(&rt, alloc, CALLS, (8, &[7]), &mut [9], no_space, &[9]);
    let offsets = (NO_ANSWER, 15, 10);
    check_remapped(&rt, alloc, SYMBOLS, seven, &mut [9], offsets, &[9]);
    let ended = (NO_ANSWER, 9, 1);
    check_remapped(&rt, alloc, &CALLS[..9], seven, &mut [9], ended, &[9]);
}

/// Checks the result of an inserted import, and the content of `room` afterwards.
fn check_inserted(
    rt: &impl Abort,
    alloc: Global,
    (bytes, name): (&[u8], &[u8]),
    drop_offsets: u32,
    room: &mut [u8],
    expected: (u64, u64, u32),
    left: &[u8],
) {
    let mut offset = 7;
    let mut cause = 7;
    let answer = dz_insert_import(
        alloc,
        bytes,
        b"host",
        name,
        0,
        drop_offsets,
        room,
        &mut offset,
        &mut cause,
    );
    assert_eq!(rt; (answer, offset, cause), expected);
    assert_eq!(rt; &*room, left);
}

#[test]
fn inserted_imports() {
    let rt = crate::host::HostRuntime;
    let alloc = rt.alloc();
    let called =
        b"\0asm\x01\0\0\0\x01\x04\x01\x60\0\0\x02\x0C\x01\x04host\x03hit\0\0\x03\x02\x01\0\x0A\x06\x01\x04\0\x10\x01\x0B";
    let hit: (&[u8], &[u8]) = (CALLS, b"hit");
    check_inserted(&rt, alloc, hit, 0, &mut [9; 40], (40, 0, 0), called);
    check_inserted(&rt, alloc, hit, 0, &mut [9; 3], (40, 0, 0), &[9; 3]);
    let alone = b"\0asm\x01\0\0\0\x02\x0C\x01\x04host\x03hit\0\0\x0A\x04\x01\x02\0\x0B";
    let symbols: (&[u8], &[u8]) = (SYMBOLS, b"hit");
    check_inserted(&rt, alloc, symbols, 1, &mut [9; 28], (28, 0, 0), alone);
    let offsets = (NO_ANSWER, 15, 10);
    check_inserted(&rt, alloc, symbols, 0, &mut [9], offsets, &[9]);
    let no_text = (NO_ANSWER, 0, 6);
    check_inserted(&rt, alloc, (CALLS, b"\xFF"), 0, &mut [9], no_text, &[9]);
}

/// The message of a cause.
struct TextRow {
    cause: u32,
    text: &'static [u8],
}

/// The messages of errors of sections and modules.
const FAULT_TEXTS: [TextRow; 12] = [
    TextRow {
        cause: 1,
        text: b"Ended",
    },
    TextRow {
        cause: 2,
        text: b"NotShortest",
    },
    TextRow {
        cause: 3,
        text: b"TooLarge",
    },
    TextRow {
        cause: 4,
        text: b"UnknownTag",
    },
    TextRow {
        cause: 5,
        text: b"UnknownOpcode",
    },
    TextRow {
        cause: 6,
        text: b"NotUtf8",
    },
    TextRow {
        cause: 7,
        text: b"SizeMismatch",
    },
    TextRow {
        cause: 8,
        text: b"Memory",
    },
    TextRow {
        cause: 9,
        text: b"NoKind",
    },
    TextRow {
        cause: 10,
        text: b"Offsets",
    },
    TextRow {
        cause: 11,
        text: b"NoIndex",
    },
    TextRow {
        cause: 12,
        text: b"Overlong",
    },
];

/// The messages of errors of recipes.
const RECIPE_TEXTS: [TextRow; 10] = [
    TextRow {
        cause: 1,
        text: b"unknown command",
    },
    TextRow {
        cause: 2,
        text: b"bad number",
    },
    TextRow {
        cause: 3,
        text: b"bad hex",
    },
    TextRow {
        cause: 4,
        text: b"missing word",
    },
    TextRow {
        cause: 5,
        text: b"out of memory",
    },
    TextRow {
        cause: 6,
        text: b"too long",
    },
    TextRow {
        cause: 7,
        text: b"not text",
    },
    TextRow {
        cause: 8,
        text: b"surplus word",
    },
    TextRow {
        cause: 9,
        text: b"unknown type",
    },
    TextRow {
        cause: 10,
        text: b"locals without a body",
    },
];

/// Checks that the message is at the front of the output, and is all that was written.
fn check_told(rt: &impl Abort, answer: u64, room: &[u8], text: &[u8]) {
    assert_eq!(rt; answer, text.len() as u64);
    assert!(rt; room.starts_with(text));
    match room.get(text.len()) {
        Some(next) => assert_eq!(rt; *next, 9),
        None => panic!(rt; "the room is too little"),
    }
}

#[test]
fn texts_of_faults() {
    let rt = crate::host::HostRuntime;
    for row in &FAULT_TEXTS {
        let mut room = [9; 20];
        let answer = dz_cause(row.cause, &mut room);
        check_told(&rt, answer, &room, row.text);
    }
    let mut little = [9; 4];
    assert_eq!(rt; dz_cause(1, &mut little), 5);
    assert_eq!(rt; dz_cause(0, &mut little), NO_ANSWER);
    assert_eq!(rt; dz_cause(13, &mut little), NO_ANSWER);
    assert_eq!(rt; little, [9; 4]);
    assert_eq!(rt; dz_cause(1, &mut []), 5);
}

#[test]
fn texts_of_recipe_causes() {
    let rt = crate::host::HostRuntime;
    for row in &RECIPE_TEXTS {
        let mut room = [9; 24];
        let answer = dz_recipe_cause(row.cause, &mut room);
        check_told(&rt, answer, &room, row.text);
    }
    let mut little = [9; 4];
    assert_eq!(rt; dz_recipe_cause(7, &mut little), 8);
    assert_eq!(rt; dz_recipe_cause(0, &mut little), NO_ANSWER);
    assert_eq!(rt; dz_recipe_cause(11, &mut little), NO_ANSWER);
    assert_eq!(rt; little, [9; 4]);
    assert_eq!(rt; dz_recipe_cause(7, &mut []), 8);
}

/// The errors of the reader.
const FAULTS: [ReadFault; 8] = [
    ReadFault::Ended,
    ReadFault::NotShortest,
    ReadFault::TooLarge,
    ReadFault::UnknownTag,
    ReadFault::UnknownOpcode,
    ReadFault::NotUtf8,
    ReadFault::SizeMismatch,
    ReadFault::Memory,
];

/// The causes of a recipe's error.
const CAUSES: [RecipeCause; 9] = [
    RecipeCause::UnknownCommand,
    RecipeCause::BadNumber,
    RecipeCause::BadHex,
    RecipeCause::MissingWord,
    RecipeCause::Memory,
    RecipeCause::TooLong,
    RecipeCause::SurplusWord,
    RecipeCause::UnknownType,
    RecipeCause::UnusedLocals,
];

/// The messages are the names that `Debug` prints of the errors, and the texts that the causes of
/// recipes print.
#[test]
fn texts_that_are_printed() {
    let rt = crate::host::HostRuntime;
    for fault in FAULTS {
        let said = format!(in rt.alloc(); "{fault:?}").expect("accepted");
        let mut room = [9; 20];
        let answer = dz_cause(fault_number(fault), &mut room);
        check_told(&rt, answer, &room, said.as_bytes());
    }
    for cause in CAUSES {
        let said = format!(in rt.alloc(); "{cause}").expect("accepted");
        let mut room = [9; 24];
        let answer = dz_recipe_cause(cause_number(cause), &mut room);
        check_told(&rt, answer, &room, said.as_bytes());
    }
}
