//! Iterating over the sections of a module, and over the bodies of a code section.
use crate::samples::{PADDED, PADDED_NAME, SHORT, UNREAD, bytes_of, custom, module};
use dolzhytik::fallible::{Global, Op, ValType};
use dolzhytik::reader::{Items, ReadError, ReadFault, Section, SectionKind, Sections};

fn error(cause: ReadFault, offset: usize) -> ReadError {
    ReadError { cause, offset }
}

/// A section's id, its kind, the offset of its id, and the range of its payload.
type Told = (u8, Option<SectionKind>, usize, std::ops::Range<usize>);

#[track_caller]
fn check(bytes: &[u8], expected: &[Told]) {
    let mut sections = Sections::new(Global, bytes).unwrap();
    for (id, kind, offset, range) in expected {
        assert_eq!(sections.offset(), *offset);
        let section = sections.next().unwrap().unwrap();
        assert_eq!(section.id(), *id);
        assert_eq!(section.kind(), *kind);
        assert_eq!(section.offset(), *offset);
        assert_eq!(section.range(), *range);
        assert_eq!(section.payload(), &bytes[range.clone()]);
        assert_eq!(section.bytes(), &bytes[*offset..range.end]);
        assert_eq!(sections.offset(), range.end);
    }
    assert!(sections.next().is_none());
    assert!(sections.next().is_none());
    assert_eq!(sections.offset(), bytes.len());
}

#[test]
fn header_alone() {
    check(&module(&[]), &[]);
}

#[test]
fn sections_with_padded_sizes() {
    let [types, functions, exports, code] = PADDED;
    let sections = [
        (1, Some(SectionKind::Types), 8, 14..21),
        (3, Some(SectionKind::Functions), 21, 25..28),
        (7, Some(SectionKind::Exports), 28, 30..35),
        (10, Some(SectionKind::Bodies), 35, 41..52),
    ];
    check(&module(&[types, functions, exports, code]), &sections);
}

#[test]
fn kinds_by_ids_and_names() {
    let sections = [
        (0, Some(SectionKind::Custom), 8, 10..10),
        (0, Some(SectionKind::Names), 10, 13..25),
        (0, Some(SectionKind::Custom), 25, 27..32),
        (12, Some(SectionKind::DataCount), 32, 34..34),
        (13, Some(SectionKind::Tags), 34, 36..36),
        (14, None, 36, 38..38),
        (255, None, 38, 40..41),
    ];
    let any = custom("a b", "ff");
    let bytes = module(&[
        "00 00",
        PADDED_NAME,
        &any,
        "0c 00",
        "0d 00",
        "0e 00",
        "ff 01 aa",
    ]);
    check(&bytes, &sections);
    let names = Sections::new(Global, &bytes)
        .unwrap()
        .map(|section| section.unwrap().name());
    let names: Vec<_> = names.collect();
    assert_eq!(
        names,
        [None, Some("name"), Some("a b"), None, None, None, None]
    );
}

#[test]
fn data_after_the_name() {
    let padded_name = "00 07 83 00 61 20 62 05 06";
    let no_name = "00 02 05 61";
    let not_utf8 = "00 02 01 ff";
    for (section, data) in [
        (custom("a b", "ff"), "ff"),
        (custom("", ""), ""),
        (padded_name.into(), "05 06"),
        (no_name.into(), "05 61"),
        (not_utf8.into(), "01 ff"),
        ("03 02 01 05".into(), "01 05"),
    ] {
        let bytes = module(&[&section]);
        let mut sections = Sections::new(Global, &bytes).unwrap();
        let found = sections.next().unwrap().unwrap();
        assert_eq!(found.data(), bytes_of(data), "{section}");
    }
}

/// The error is the last item, at its offset.
#[track_caller]
fn check_end(sections: &[&str], whole: usize, expected: ReadError, text: &str) {
    let bytes = module(sections);
    let mut given = Sections::new(Global, &bytes).unwrap();
    assert_eq!(
        given.by_ref().take(whole).filter(Result::is_ok).count(),
        whole
    );
    let offset = given.offset();
    assert_eq!(given.next().unwrap().unwrap_err(), expected);
    assert!(given.next().is_none());
    assert_eq!(given.offset(), offset);
    assert_eq!(expected.to_string(), text);
}

#[test]
fn errors_and_their_offsets() {
    // The size of a section is missing.
    let ended = error(ReadFault::Ended, 13);
    check_end(
        &[SHORT[1], "01"],
        1,
        ended,
        "unexpected end of input at offset 0xd",
    );
    // The payload has two bytes of three: it would end after the input does.
    check_end(
        &["01 03 00 00"],
        0,
        ended_at(12),
        "unexpected end of input at offset 0xc",
    );
    // The fifth byte of the size has bits past 32.
    let large = error(ReadFault::TooLarge, 13);
    check_end(
        &["01 ff ff ff ff 1f"],
        0,
        large,
        "integer too large at offset 0xd",
    );
}

fn ended_at(offset: usize) -> ReadError {
    error(ReadFault::Ended, offset)
}

#[test]
fn headers() {
    assert_eq!(Sections::new(Global, b"\0asm").unwrap_err(), ended_at(4));
    // A component, and a text.
    let component = error(ReadFault::UnknownTag, 4);
    assert_eq!(
        Sections::new(Global, b"\0asm\x0d\0\x01\0").unwrap_err(),
        component
    );
    let other = error(ReadFault::UnknownTag, 0);
    assert_eq!(Sections::new(Global, b"(module)").unwrap_err(), other);
    assert_eq!(other.to_string(), "unexpected byte or value at offset 0x0");
}

/// The first section of a module.
pub fn first_section(module: &[u8]) -> Section<'_> {
    Sections::new(Global, module)
        .unwrap()
        .next()
        .unwrap()
        .unwrap()
}

/// A section alone, and what follows from its payload.
#[track_caller]
fn check_items(section: &str, count: Option<u32>, is_expected: impl Fn(&Items<'_>) -> bool) {
    let bytes = module(&[section]);
    let section = first_section(&bytes);
    assert_eq!(section.count(), Ok(count));
    let items = section.items().unwrap();
    assert!(is_expected(&items), "{items:?}");
}

#[test]
fn items_and_their_number() {
    check_items(
        PADDED[0],
        Some(1),
        |items| matches!(items, Items::Types(types) if types.len() == 1),
    );
    check_items(
        PADDED[1],
        Some(1),
        |items| matches!(items, Items::Functions(types) if **types == [0]),
    );
    check_items(
        PADDED[2],
        Some(1),
        |items| matches!(items, Items::Exports(exports) if exports[0].name == "f"),
    );
    check_items("08 01 07", Some(1), |items| {
        matches!(items, Items::Start(7))
    });
    check_items(
        PADDED_NAME,
        None,
        |items| matches!(items, Items::Names(names) if names.len() == 1),
    );
    check_items("0e 01 aa", None, |items| {
        matches!(items, Items::Raw([0xaa]))
    });
    // `exnref` in one byte, as clang writes it.
    check_items("01 05 01 60 00 01 69", Some(1), |items| {
        matches!(items, Items::Types(_))
    });
}

#[track_caller]
fn check_unread(section: &str, expected: ReadError) {
    let bytes = module(&[section]);
    let section = first_section(&bytes);
    assert_eq!(section.count(), Err(expected));
    assert_eq!(section.items().unwrap_err(), expected);
}

#[test]
fn payloads_that_do_not_decode() {
    // A second type, whose first byte is 00; a second index that is missing; a byte too many.
    check_unread("01 05 02 60 00 00 00", error(ReadFault::UnknownTag, 14));
    check_unread("03 02 02 00", ended_at(12));
    check_unread("03 03 01 00 00", error(ReadFault::SizeMismatch, 12));
    check_unread(UNREAD, ended_at(12));
}

// ---- bodies

#[test]
fn bodies_of_a_code_section() {
    let bytes = module(&[
        SHORT[1],
        "0a 8e80808000 02 8800 01 02 7f 2000 45 1a 0b 02 00 0b",
    ]);
    let code = Sections::new(Global, &bytes)
        .unwrap()
        .nth(1)
        .unwrap()
        .unwrap();
    let mut bodies = code.bodies().unwrap();
    assert_eq!(bodies.left(), 2);
    let first = bodies.next().unwrap().unwrap();
    assert_eq!(first.offset(), 21);
    assert_eq!(first.bytes(), bytes_of("01 02 7f 2000 45 1a 0b"));
    let (locals, mut instructions) = first.instructions().unwrap();
    assert_eq!(*locals, [(2, ValType::I32)]);
    let mut steps = Vec::new();
    while let Some(decoded) = instructions.next().unwrap() {
        steps.push((decoded.offset, decoded.op));
    }
    let expected = [(3, 0x20), (5, 0x45), (6, 0x1a), (7, 0x0b)];
    assert_eq!(
        steps,
        expected.map(|(offset, byte)| (offset, Op::Byte(byte)))
    );
    let second = bodies.next().unwrap().unwrap();
    assert_eq!((second.offset(), second.bytes()), (30, &[0x00, 0x0b][..]));
    assert!(bodies.next().is_none());
    assert_eq!(bodies.left(), 0);
}

#[track_caller]
fn check_bodies(section: &str, whole: usize, expected: ReadError) {
    let bytes = module(&[section]);
    let section = first_section(&bytes);
    let mut bodies = section.bodies().unwrap();
    assert_eq!(
        bodies.by_ref().take(whole).filter(Result::is_ok).count(),
        whole
    );
    assert_eq!(bodies.next().unwrap().unwrap_err(), expected);
    assert!(bodies.next().is_none());
}

#[test]
fn bodies_that_are_not_all_there() {
    // One body of two, a body of two bytes of three, and a byte after the last body.
    check_bodies("0a 04 02 02 00 0b", 1, ended_at(14));
    check_bodies("0a 04 01 03 00 0b", 0, ended_at(14));
    check_bodies(
        "0a 05 01 02 00 0b 00",
        1,
        error(ReadFault::SizeMismatch, 14),
    );
}

#[test]
fn sections_without_bodies() {
    let bytes = module(&[SHORT[1], "0a 00"]);
    let mut sections = Sections::new(Global, &bytes).unwrap();
    let functions = sections.next().unwrap().unwrap();
    assert_eq!(
        functions.bodies().unwrap_err(),
        error(ReadFault::UnknownTag, 8)
    );
    let code = sections.next().unwrap().unwrap();
    assert_eq!(code.bodies().unwrap_err(), ended_at(14));
}

/// The locals of a body are missing, and an instruction is none; offsets are those in the module.
#[test]
fn instructions_that_are_none() {
    let bytes = module(&["0a 06 02 00 03 00 ff 0b"]);
    let code = first_section(&bytes);
    let mut bodies = code.bodies().unwrap();
    let first = bodies.next().unwrap().unwrap();
    assert_eq!(first.instructions().unwrap_err(), ended_at(12));
    let second = bodies.next().unwrap().unwrap();
    let (_, mut instructions) = second.instructions().unwrap();
    let stopped = second.locate(instructions.next().unwrap_err());
    assert_eq!(stopped, error(ReadFault::UnknownOpcode, 14));
}

/// A section keeps its bytes in a module of the root's builder: its size stays padded.
#[test]
fn sections_are_copied() {
    let bytes = module(&PADDED);
    let mut copied = dolzhytik::Module::new();
    for section in Sections::new(Global, &bytes).unwrap() {
        copied.section(&section.unwrap());
    }
    assert_eq!(copied.finish(), bytes);
}
